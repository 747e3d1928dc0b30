#include "cases.h"
#include "stretches.h"

#include <string.h>

/* ---- names ------------------------------------------------------------- */

const char *call_name(uint32_t call)
{
    static const char *const names[] = {"none", "check", "read", "write", "plain", "run"};
    return names[call <= CALL_RUN ? call : 0];
}

const uint8_t numbers[NUMBERS] = {0,  1,  2,  3,  4,  5,  6,  7,  8,  9,
                                  10, 11, 12, 13, 14, 15, 16, 17, 18, 22};

bool is_number(uint32_t number)
{
    for (uint32_t i = 0; i < NUMBERS; i++)
        if (numbers[i] == number)
            return true;
    return false;
}

uint32_t answer_words(uint32_t call)
{
    static const uint8_t words[] = {0, 7, 7, 3, 2, 25};
    return words[call <= CALL_RUN ? call : 0];
}

const char *answer_word(uint32_t call, uint32_t index)
{
    static const char *const words[6][MOST_ANSWER_WORDS] = {
        {0},
        {"number", "place", "tasks", "workers", "cells", "total", "version"},
        {"number", "place", "bytes", "tasks", "workers", "cells", "version"},
        {"number", "place", "bytes"},
        {"number", "place"},
        {"number",    "place",         "advanced",     "held",    "done",  "finished",
         "past_last", "write_differs", "reads_differ", "reason0", "cell0", "reason1",
         "cell1",     "reason2",       "cell2",        "reason3", "cell3", "reason4",
         "cell4",     "reason5",       "cell5",        "reason6", "cell6", "reason7",
         "cell7"},
    };
    return words[call][index];
}

/* ---- what the answer will be ------------------------------------------- */

/* The case has this refusal, unless an earlier one in the order is there. */
static void refused(struct test_case *made, uint32_t number, uint32_t place)
{
    if (made->number != 0)
        return;
    made->number = number;
    made->place = place;
}

/* The case has this refusal, whatever others it has: it comes before them. */
static void refused_first(struct test_case *made, uint32_t number)
{
    made->known = true;
    made->number = number;
    made->place = 0;
}

/* ---- sizes ------------------------------------------------------------- */

static uint32_t some_tasks(struct random *random, enum sizes sizes)
{
    uint32_t kind = below(random, 100);
    if (sizes == MOSTLY_SMALL) {
        if (kind < 95)
            return between(random, 1, 4);
        if (kind < 99)
            return between(random, 5, 12);
        return chance(random, 900) ? between(random, 13, 41) : between(random, 195, 200);
    }
    if (kind < 50)
        return between(random, 1, 8);
    if (kind < 70) { /* about a whole number of blocks */
        uint32_t blocks = between(random, 1, chance(random, 800) ? 3 : 19);
        return 10 * blocks + between(random, 0, 2) - 1;
    }
    if (kind < 94)
        return between(random, 1, 60);
    return chance(random, 500) ? between(random, 1, 200) : between(random, 189, 200);
}

static uint32_t some_workers(struct random *random)
{
    return chance(random, 250) ? (chance(random, 500) ? 1 : 8) : between(random, 1, 8);
}

static uint32_t some_cells(struct random *random, enum sizes sizes)
{
    if (sizes == MOSTLY_SMALL && !chance(random, 100))
        return between(random, 1, 8);
    return chance(random, 250) ? (chance(random, 500) ? 1 : 32) : between(random, 1, 32);
}

/* The codes that may stand in a flow for a call: the writer takes operation 6 in
   neither version (02, Q-9). */
static enum codes codes_for(uint32_t call, uint32_t version)
{
    return call == CALL_WRITE ? FIVE_CODES : codes_of(version);
}

/* One flow in four that may have operation 6 has none, so that files of all sizes
   can be written back. */
static void some_flow(struct random *random, uint32_t call, enum sizes sizes,
                      struct sample *flow)
{
    uint32_t tasks = some_tasks(random, sizes);
    uint32_t workers = some_workers(random);
    uint32_t cells = some_cells(random, sizes);
    uint32_t version = between(random, 1, MOST_VERSION);
    enum codes codes = chance(random, 250) ? FIVE_CODES : codes_for(call, version);

    if (cells >= 4 && chance(random, 30))
        make_full_flow(random, flow, tasks, workers, cells, codes);
    else
        make_flow(random, flow, tasks, workers, cells, codes);
    flow->version = version;
}

/* A length around what is needed: mostly that, else shorter or longer. */
static size_t some_room(struct random *random, size_t needed, size_t unit)
{
    switch (below(random, 16)) {
    case 0:
        return needed - 1;
    case 1:
        return 0;
    case 2:
        return needed - unit;
    case 3:
        return below(random, (uint32_t)needed);
    case 4:
        return needed + 1;
    case 5:
        return needed + unit;
    case 6:
        return needed + below(random, 200);
    default:
        return needed;
    }
}

static void fill(struct random *random, uint8_t *bytes, size_t length)
{
    for (size_t i = 0; i < length; i += 8) {
        uint64_t word = random_next(random);
        memcpy(bytes + i, &word, length - i < 8 ? length - i : 8);
    }
}

/* ---- chosen faults ----------------------------------------------------- */

struct fault {
    uint32_t number;
    uint32_t place;
};

/* The numbers of a file, in the order in which a block or a task has them: 17
   comes "directly after 11 on the same task" (02, Q-6), and 18 "after 10 and
   before 11 on the same task" (02, Q-9). */
static const uint8_t file_numbers[] = {1, 2, 3, 4, 5, 6, 7, 8, 9, 10, 18, 11, 17};

/* Where the numbers of a task begin there, where the last five do, and how
   many there are. */
enum { OF_A_TASK = 5, LAST_FIVE = 8, FILE_NUMBERS = sizeof file_numbers };

/* Its index in that order. */
static uint32_t rank_of(uint32_t number)
{
    uint32_t rank = 0;
    while (file_numbers[rank] != number)
        rank++;
    return rank;
}

static bool is_of_a_task(uint32_t number)
{
    return rank_of(number) >= OF_A_TASK;
}

/* "Order: 1; then 2 to 5 on block 0, then on block 1, and so on; then 6 to 11
   on task 1, then task 2, and so on." With 18 before 11, and with 17 after it and
   "before 6 on the next" (02, Q-6). */
static uint32_t order_of(struct fault fault)
{
    uint32_t first = is_of_a_task(fault.number) ? 0x20000 : 0x10000;
    if (fault.number == 1)
        return 0;
    return first + fault.place * FILE_NUMBERS + rank_of(fault.number);
}

/* A number from this one of the order on. The last, which every other fault of
   its task hides, is twice as likely as another. */
static uint32_t some_number(struct random *random, uint32_t first)
{
    uint32_t rank = between(random, first, FILE_NUMBERS);
    return file_numbers[rank < FILE_NUMBERS ? rank : FILE_NUMBERS - 1];
}

/* The first, the last or any. */
static uint32_t some_index(struct random *random, uint32_t count)
{
    if (chance(random, 300))
        return 0;
    return chance(random, 300) ? count - 1 : below(random, count);
}

/* The later one in the order first. */
static void sort_faults(struct fault *faults, uint32_t count)
{
    for (uint32_t i = 1; i < count; i++) {
        struct fault moved = faults[i];
        uint32_t j = i;
        for (; j > 0 && order_of(faults[j - 1]) < order_of(moved); j--)
            faults[j] = faults[j - 1];
        faults[j] = moved;
    }
}

/* A length that is 0, no multiple of 512, or over 10,240. Bytes that come in
   new are zero, or the file over again. */
static void spoil_length(struct random *random, struct test_case *made)
{
    size_t was = made->input_len;
    size_t length;
    switch (below(random, chance(random, 400) ? 6 : 4)) {
    case 0:
        length = 0;
        break;
    case 1:
        length = was - between(random, 1, 511);
        break;
    case 2:
        length = was + between(random, 1, 511);
        break;
    case 3:
        length = chance(random, 500) ? 1 : 511;
        break;
    case 4:
        length = MOST_FILE + BLOCK_BYTES * between(random, 1, 6);
        break;
    default:
        length = MOST_FILE + (chance(random, 500) ? 1 : between(random, 1, 2000));
        break;
    }
    bool again = chance(random, 500);
    for (size_t i = was; i < length; i++)
        made->input[i] = again ? made->input[i - was] : 0;
    made->input_len = length;
}

/* The first of the faults, which is the last here, is the answer. Where operation
   6 may stand, 18 is no fault; but what it does to a fault after it on the same
   task is not known. */
static void refused_for(struct test_case *made, const struct fault *faults, uint32_t count,
                        enum codes codes)
{
    for (uint32_t i = count; i-- > 0;) {
        if (faults[i].number != 18 || codes == FIVE_CODES) {
            refused(made, faults[i].number, faults[i].place);
            return;
        }
        if (i > 0 && faults[i - 1].place == faults[i].place)
            made->known = false;
    }
}

/* Makes the faults from the last in the order to the first, so that each is
   made where nothing before it in the order is at fault yet. */
static void spoil_file(struct random *random, struct test_case *made,
                       const struct sample *flow, uint32_t count)
{
    struct fault faults[3];
    enum codes codes = codes_for(made->call, flow->version);
    uint32_t blocks = blocks_of(flow->tasks);
    uint32_t task = some_index(random, flow->tasks);

    for (uint32_t i = 0; i < count; i++) {
        uint32_t number = some_number(random, 0);
        if (number == 1 && chance(random, 700))
            number = some_number(random, LAST_FIVE);
        if (!chance(random, 500)) /* else two faults of one task or of one block */
            task = some_index(random, flow->tasks);
        faults[i].number = number;
        faults[i].place = number == 1 ? 0 : is_of_a_task(number) ? task + 1 : task / 10;
    }
    sort_faults(faults, count);
    for (uint32_t i = 0; i < count; i++) {
        struct fault fault = faults[i];
        if (i > 0 && order_of(faults[i - 1]) == order_of(fault))
            continue; /* one might undo the other */
        if (fault.number == 1) {
            spoil_length(random, made);
        } else if (!is_of_a_task(fault.number)) {
            spoil_block(random, made->input, blocks, fault.place, fault.number);
        } else {
            spoil_row(random, row_in_file(made->input, fault.place - 1), fault.number,
                      flow->workers, flow->cells, codes);
            put_check(made->input + BLOCK_BYTES * ((fault.place - 1) / 10));
        }
    }
    refused_for(made, faults, count, codes);
}

/* The same for the writer's rows alone: 6 to 11, 17 and 18. */
static void spoil_rows(struct random *random, struct test_case *made,
                       const struct sample *flow, uint32_t count)
{
    struct fault faults[3];
    uint32_t task = some_index(random, flow->tasks);

    for (uint32_t i = 0; i < count; i++) {
        if (!chance(random, 500))
            task = some_index(random, flow->tasks);
        faults[i].number = some_number(random, OF_A_TASK);
        faults[i].place = task + 1;
    }
    sort_faults(faults, count);
    for (uint32_t i = 0; i < count; i++) {
        if (i > 0 && order_of(faults[i - 1]) == order_of(faults[i]))
            continue;
        spoil_row(random, made->input + ROW_BYTES * (faults[i].place - 1), faults[i].number,
                  flow->workers, flow->cells, FIVE_CODES);
    }
    refused_for(made, faults, count, FIVE_CODES);
}

/* ---- blind damage ------------------------------------------------------ */

static void damage_byte(struct random *random, uint8_t *at)
{
    switch (below(random, 6)) {
    case 0:
        *at = 0;
        break;
    case 1:
        *at = 255;
        break;
    case 2:
        *at ^= (uint8_t)(1u << below(random, 8));
        break;
    case 3:
        *at = (uint8_t)(*at + 1);
        break;
    case 4:
        *at = (uint8_t)below(random, 8);
        break;
    default:
        *at = (uint8_t)below(random, 256);
        break;
    }
}

/* Mostly in the head of a block or in a row that is used. */
static size_t some_byte(struct random *random, const struct sample *flow, size_t length)
{
    uint32_t kind = below(random, 10);
    if (kind < 3) {
        uint32_t block = below(random, blocks_of(flow->tasks));
        return BLOCK_BYTES * block + below(random, 16);
    }
    if (kind < 8) {
        uint32_t task = below(random, flow->tasks);
        uint32_t byte = chance(random, 500) ? below(random, 18) : below(random, ROW_BYTES);
        return BLOCK_BYTES * (task / 10) + 16 + ROW_BYTES * (task % 10) + byte;
    }
    return below(random, (uint32_t)length);
}

static void damage_file(struct random *random, struct test_case *made,
                        const struct sample *flow, uint32_t count, bool put_right)
{
    for (uint32_t i = 0; i < count; i++) {
        size_t at = some_byte(random, flow, made->input_len);
        damage_byte(random, made->input + at);
        if (put_right)
            put_check(made->input + at / BLOCK_BYTES * BLOCK_BYTES);
    }
    made->known = false;
}

static void put_right_file(struct test_case *made, bool counts)
{
    for (size_t at = 0; at + BLOCK_BYTES <= made->input_len; at += BLOCK_BYTES) {
        if (counts) {
            made->input[at + 6] = (uint8_t)(at / BLOCK_BYTES);
            made->input[at + 8] = (uint8_t)(made->input_len / BLOCK_BYTES);
        }
        put_check(made->input + at);
    }
}

/* Shorter by blocks or by bytes. */
static void truncate_file(struct random *random, struct test_case *made)
{
    uint32_t blocks = (uint32_t)(made->input_len / BLOCK_BYTES);
    if (chance(random, 600))
        made->input_len = BLOCK_BYTES * below(random, blocks + 1);
    else
        made->input_len = below(random, (uint32_t)made->input_len + 1);
    if (chance(random, 500))
        put_right_file(made, chance(random, 700));
    made->known = false;
}

/* Longer by whole blocks: zero, or the last one over again. */
static void extend_file(struct random *random, struct test_case *made)
{
    size_t was = made->input_len;
    bool again = chance(random, 500);
    made->input_len += BLOCK_BYTES * between(random, 1, 3);
    for (size_t i = was; i < made->input_len; i++)
        made->input[i] = again ? made->input[i - BLOCK_BYTES] : 0;
    if (chance(random, 700))
        put_right_file(made, chance(random, 700));
    made->known = false;
}

/* Two blocks change places. */
static void exchange_blocks(struct random *random, struct test_case *made)
{
    uint32_t blocks = (uint32_t)(made->input_len / BLOCK_BYTES);
    uint8_t *one = made->input + BLOCK_BYTES * below(random, blocks);
    uint8_t *other = made->input + BLOCK_BYTES * below(random, blocks);
    uint8_t kept[BLOCK_BYTES];
    memcpy(kept, one, BLOCK_BYTES);
    memmove(one, other, BLOCK_BYTES);
    memcpy(other, kept, BLOCK_BYTES);
    if (chance(random, 500))
        put_right_file(made, true);
    made->known = false;
}

/* A length at a limit, zero or noise throughout. */
static void make_noise(struct random *random, struct test_case *made)
{
    static const uint16_t lengths[] = {0,    1,     511,   512,   513,   1023,
                                       1024, 10239, 10240, 10241, 10752, 12288};
    made->input_len = lengths[below(random, chance(random, 300) ? 12 : 7)];
    if (chance(random, 500))
        fill(random, made->input, made->input_len);
    else
        memset(made->input, 0, made->input_len);
    if (chance(random, 500))
        put_right_file(made, chance(random, 500));
    made->known = false;
}

/* ---- files ------------------------------------------------------------- */

static void choose_faults(struct random *random, struct test_case *made,
                          const struct sample *flow, uint32_t kind)
{
    static const char *const kinds[] = {"one fault", "two faults", "three faults"};
    uint32_t count = kind < 4 ? 1 : kind < 6 ? 2 : 3;

    made->kind = kinds[count - 1];
    spoil_file(random, made, flow, count);
}

static void damage_blindly(struct random *random, struct test_case *made,
                           const struct sample *flow, uint32_t kind)
{
    static const char *const kinds[] = {
        "one byte damaged", "one byte damaged, check put right", "several bytes damaged",
        "truncated",        "extended",                          "blocks exchanged",
        "zero or noise"};
    bool put_right = kind == 1 || (kind == 2 && chance(random, 800));

    made->kind = kinds[kind];
    switch (kind) {
    case 0:
    case 1:
        damage_file(random, made, flow, 1, put_right);
        break;
    case 2:
        damage_file(random, made, flow, between(random, 2, 8), put_right);
        break;
    case 3:
        truncate_file(random, made);
        break;
    case 4:
        extend_file(random, made);
        break;
    case 5:
        exchange_blocks(random, made);
        break;
    default:
        make_noise(random, made);
        break;
    }
}

/* Blocks of both versions: the first that has not block 0's is at fault. Those
   after it all have the other one, or some of them. */
static void mix_versions(struct random *random, struct test_case *made, uint32_t blocks)
{
    uint32_t first = 1 + some_index(random, blocks - 1);
    uint32_t share = chance(random, 300) ? 1000 : below(random, 1000);

    made->kind = "blocks of both versions";
    for (uint32_t i = first; i < blocks; i++) {
        uint8_t *block = made->input + BLOCK_BYTES * i;
        if (i == first || chance(random, share))
            block[4] = other_version(block[4]);
        put_check(block);
    }
    refused(made, 3, first);
}

/* Operation 6 in many tasks of a file, or of the writer's rows. Where it may not
   stand, the first that has it is at fault. */
static void put_larger_in_many(struct random *random, struct test_case *made,
                               const struct sample *flow)
{
    enum codes codes = codes_for(made->call, flow->version);
    bool writes = made->call == CALL_WRITE;
    uint32_t share = between(random, 100, 1000);

    made->kind = "operation 6 in many tasks";
    for (uint32_t i = 0; i < flow->tasks; i++) {
        uint8_t *row = writes ? made->input + ROW_BYTES * i : row_in_file(made->input, i);
        if (!chance(random, share))
            continue;
        spoil_row(random, row, 18, flow->workers, flow->cells, codes);
        if (codes == FIVE_CODES)
            refused(made, 18, i + 1);
    }
    if (!writes)
        put_right_file(made, false);
}

static void some_file(struct random *random, struct test_case *made,
                      const struct sample *flow)
{
    uint32_t blocks = blocks_of(flow->tasks);
    /* a run is mostly of a file that is accepted */
    uint32_t valid = made->call == CALL_RUN ? 800 : made->call == CALL_PLAIN ? 600 : 280;

    made->kind = "valid file";
    made->input_len = make_file(flow, made->input);
    if (chance(random, valid))
        return;
    uint32_t kind = below(random, 14);
    if (blocks > 1 && chance(random, 100))
        mix_versions(random, made, blocks);
    else if (chance(random, 30))
        put_larger_in_many(random, made, flow);
    else if (kind < 7)
        choose_faults(random, made, flow, kind);
    else
        damage_blindly(random, made, flow, kind - 7);
}

static void some_read(struct random *random, struct test_case *made,
                      const struct sample *flow)
{
    size_t needed = (size_t)flow->tasks * ROW_BYTES;
    made->output_len = some_room(random, needed, ROW_BYTES);
    fill(random, made->output, made->output_len);
    if (made->output_len < needed)
        refused(made, 16, 0);
}

/* ---- the writer -------------------------------------------------------- */

/* Right in its part below `unit` alone: that is from 1 to `most`. */
static uint32_t right_below(struct random *random, uint32_t unit, uint32_t times, uint32_t most)
{
    uint32_t high = unit * between(random, 1, times);
    return high + between(random, 1, most);
}

/* A number that is not from 1 to `most`; some look right in their low byte or
   their low half. */
static uint32_t outside(struct random *random, uint32_t most)
{
    switch (below(random, 6)) {
    case 0:
        return 0;
    case 1:
        return most + 1;
    case 2:
        return right_below(random, 256, 1000, most);
    case 3:
        return right_below(random, 0x10000, 60000, most);
    case 4:
        return chance(random, 500) ? UINT32_MAX : UINT32_C(0x80000000) + between(random, 0, most);
    default:
        return between(random, most + 1, UINT32_MAX - 1);
    }
}

/* A version that the writer does not take. */
static uint32_t no_version(struct random *random)
{
    static const uint32_t some[] = {0,   3,     255,   256,      257,        258,
                                    513, 65537, 65538, 16777217, 0x80000001, UINT32_MAX};
    return chance(random, 500) ? some[below(random, 12)] : outside(random, MOST_VERSION);
}

/* The writer's workers, its cells, or both. */
static void spoil_sizes(struct random *random, struct test_case *made)
{
    bool both = chance(random, 200);
    bool workers = both || chance(random, 500);

    if (workers)
        made->workers = outside(random, MOST_WORKERS);
    if (both || !workers)
        made->cells = outside(random, MOST_CELLS);
}

static void spoil_rows_length(struct random *random, struct test_case *made)
{
    size_t was = made->input_len;
    switch (below(random, chance(random, 400) ? 5 : 3)) {
    case 0:
        made->input_len = 0;
        break;
    case 1:
        made->input_len = was - between(random, 1, 47);
        break;
    case 2:
        made->input_len = was + between(random, 1, 47);
        break;
    case 3:
        made->input_len = MOST_TASKS * ROW_BYTES + (chance(random, 500) ? 48 : 1);
        break;
    default:
        made->input_len = 201 * ROW_BYTES + 48 * below(random, 50);
        break;
    }
    for (size_t i = was; i < made->input_len; i++)
        made->input[i] = made->input[i - was];
}

static void some_rows(struct random *random, struct test_case *made,
                      const struct sample *flow)
{
    if (chance(random, 420))
        return;
    if (chance(random, 440)) {
        made->kind = "rows with faults";
        spoil_rows(random, made, flow, between(random, 1, 3));
    } else if (chance(random, 300)) {
        uint32_t count = chance(random, 600) ? 1 : between(random, 2, 6);
        made->kind = "rows damaged";
        for (uint32_t i = 0; i < count; i++)
            damage_byte(random, made->input + below(random, (uint32_t)made->input_len));
        made->known = false;
    } else if (chance(random, 40)) {
        put_larger_in_many(random, made, flow);
    }
}

/* "15, 4, 6 to 11, 16", with 18 before 11 and 17 after it, and 22 "after 15 and
   before 4": made from the last to the first. */
static void some_write(struct random *random, struct test_case *made,
                       const struct sample *flow)
{
    size_t needed = (size_t)blocks_of(flow->tasks) * BLOCK_BYTES;

    made->kind = "rows";
    made->input_len = (size_t)flow->tasks * ROW_BYTES;
    memcpy(made->input, flow->rows, made->input_len);
    made->version = flow->version;
    made->workers = flow->workers;
    made->cells = flow->cells;
    made->output_len = some_room(random, needed, BLOCK_BYTES);
    fill(random, made->output, made->output_len);
    some_rows(random, made, flow);
    if (made->output_len < needed)
        refused(made, 16, 0);
    if (chance(random, 150)) {
        spoil_sizes(random, made);
        refused_first(made, 4);
    }
    if (chance(random, 120)) {
        made->version = no_version(random);
        refused_first(made, 22);
    }
    if (chance(random, 80)) {
        spoil_rows_length(random, made);
        refused_first(made, 15);
    }
}

/* ---- the runs ---------------------------------------------------------- */

static void some_start(struct random *random, struct test_case *made,
                       const struct sample *flow)
{
    uint32_t count = flow->cells;
    if (chance(random, 60)) {
        static const uint8_t others[] = {0, 1, 31, 32, 33, 64, 255};
        count = others[below(random, 7)];
    } else if (chance(random, 40)) {
        count = flow->cells + (chance(random, 500) ? 1u : -1u);
    }
    made->output_len = 4 * (size_t)count;
    fill(random, made->output, made->output_len);
    if (chance(random, 200))
        memset(made->output, chance(random, 500) ? 0 : 255, made->output_len);
    if (count != flow->cells)
        refused(made, 12, 0);
}

/* In turn; the worker that is first is any. */
static void fair_schedule(struct random *random, struct test_case *made, uint32_t workers)
{
    uint32_t first = chance(random, 500) ? 0 : below(random, workers);
    for (size_t i = 0; i < made->schedule_len; i++)
        made->schedule[i] = (uint8_t)((first + i) % workers);
}

/* One worker most of the time. */
static void unfair_schedule(struct random *random, struct test_case *made, uint32_t workers)
{
    uint32_t favoured = below(random, workers);
    uint32_t share = between(random, 500, 990);
    for (size_t i = 0; i < made->schedule_len; i++)
        made->schedule[i] = (uint8_t)(chance(random, share) ? favoured : below(random, workers));
}

/* One worker for a while, then another. */
static void bursts(struct random *random, struct test_case *made, uint32_t workers)
{
    uint32_t longest = between(random, 2, 60);
    size_t i = 0;
    while (i < made->schedule_len) {
        uint32_t worker = below(random, workers);
        uint32_t left = between(random, 1, longest);
        for (; left > 0 && i < made->schedule_len; left--)
            made->schedule[i++] = (uint8_t)worker;
    }
}

static void random_schedule(struct random *random, struct test_case *made, uint32_t workers)
{
    for (size_t i = 0; i < made->schedule_len; i++)
        made->schedule[i] = (uint8_t)below(random, workers);
}

void some_names(struct random *random, struct test_case *made, uint32_t workers)
{
    switch (below(random, 8)) {
    case 0:
    case 1:
        fair_schedule(random, made, workers);
        break;
    case 2:
        unfair_schedule(random, made, workers);
        break;
    case 3:
        memset(made->schedule, (int)below(random, workers), made->schedule_len);
        break;
    case 4:
        bursts(random, made, workers);
        break;
    default:
        random_schedule(random, made, workers);
        break;
    }
}

/* Up to the total for each worker, which is enough to finish if it is fair;
   at the limit of 65,536 now and then. */
static size_t some_length(struct random *random, const struct sample *flow, enum sizes sizes)
{
    uint32_t total = total_of(flow);
    uint32_t enough = total * flow->workers;
    uint32_t most = sizes == MOSTLY_SMALL ? 250 : 4000;

    if (sizes == ALL_SIZES && chance(random, 8)) {
        static const int32_t beside[] = {-1, 0, 0, 1, 1, 2, 1000};
        return (size_t)(MOST_SCHEDULE + beside[below(random, 7)]);
    }
    if (chance(random, 60))
        return 0;
    if (sizes == ALL_SIZES && chance(random, 20))
        return enough;
    if (chance(random, 300))
        return below(random, 40);
    if (enough > most)
        enough = most;
    return chance(random, 500) ? enough : below(random, enough + 1);
}

static void some_schedule(struct random *random, struct test_case *made,
                          const struct sample *flow, enum sizes sizes)
{
    size_t length = some_length(random, flow, sizes);

    made->schedule_len = length;
    some_names(random, made, flow->workers);
    if (length > MOST_SCHEDULE)
        refused(made, 13, 0);
    if (length > 0 && chance(random, 80)) {
        static const uint8_t others[] = {8, 9, 255, 128};
        uint32_t at = some_index(random, (uint32_t)length);
        uint32_t bad = flow->workers;
        if (chance(random, 400))
            bad = others[below(random, 4)];
        made->schedule[at] = (uint8_t)bad;
        if (chance(random, 300)) /* and more of them after the first */
            memset(made->schedule + at, (int)bad, length - at);
        refused(made, 14, at);
    }
}

/* Every task is the same worker's, which then has the longest way to go. */
static void one_owner(struct random *random, struct sample *flow)
{
    uint32_t owner = below(random, flow->workers);
    for (uint32_t i = 0; i < flow->tasks; i++)
        flow->rows[i * ROW_BYTES] = (uint8_t)owner;
}

/* An accepted run under stretches; small ones are of the first few tasks. */
static void some_stretches(struct random *random, struct test_case *made, struct sample *flow,
                           enum sizes sizes)
{
    static const char *const kinds[STRETCH_KINDS] = {
        [OWN_STRETCHES] = "own stretches",
        [TOTAL_STRETCHES] = "total stretches",
        [FEWER_STRETCHES] = "fewer stretches than own",
        [AGAIN_STRETCHES] = "total stretches, some workers more than once"};
    enum stretch_kind kind = between(random, OWN_STRETCHES, AGAIN_STRETCHES);

    if (sizes == MOSTLY_SMALL && flow->tasks > 4)
        flow->tasks = 4;
    if (chance(random, 250))
        one_owner(random, flow);
    made->kind = kinds[kind];
    made->input_len = make_file(flow, made->input);
    made->output_len = 4 * (size_t)flow->cells;
    fill(random, made->output, made->output_len);
    put_stretches(random, made, flow, kind);
}

/* ---- a case ------------------------------------------------------------ */

static uint32_t some_call(struct random *random)
{
    uint32_t kind = below(random, 100);
    if (kind < 20)
        return CALL_CHECK;
    if (kind < 40)
        return CALL_READ;
    if (kind < 65)
        return CALL_WRITE;
    return kind < 75 ? CALL_PLAIN : CALL_RUN;
}

void make_case(uint64_t seed, uint64_t number, enum sizes sizes, struct test_case *made)
{
    struct random random = random_of_case(seed, number);
    struct sample flow;

    made->call = some_call(&random);
    made->known = true;
    made->number = 0;
    made->place = 0;
    made->input_len = 0;
    made->output_len = 0;
    made->schedule_len = 0;
    made->stretches.kind = NO_STRETCHES;
    made->version = 0;
    made->workers = 0;
    made->cells = 0;
    some_flow(&random, made->call, sizes, &flow);

    if (made->call == CALL_WRITE) {
        some_write(&random, made, &flow);
        return;
    }
    if (made->call == CALL_RUN && chance(&random, 125)) {
        some_stretches(&random, made, &flow, sizes);
        return;
    }
    some_file(&random, made, &flow);
    if (made->call == CALL_READ)
        some_read(&random, made, &flow);
    if (made->call == CALL_PLAIN || made->call == CALL_RUN)
        some_start(&random, made, &flow);
    if (made->call == CALL_RUN)
        some_schedule(&random, made, &flow, sizes);
}
