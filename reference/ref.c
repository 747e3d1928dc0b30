/*
 * The flow format and its runs, in C. "01" is the scope document, "02" the
 * change requests after it. A comment that quotes one of them names the rule
 * that the code below it keeps; it is 01 where none is said.
 *
 * Nothing is copied and nothing is allocated: a file is checked where it
 * lies, in one pass over its blocks and one over its rows, and the runs read
 * the rows from there. The state of a stepped run is under one kilobyte.
 */
#include "ref.h"

#include <stdbool.h>
#include <string.h>

/* "A flow has 1 to 200 tasks, 1 to 8 workers and 1 to 32 cells." */
enum { MAX_TASKS = 200, MAX_WORKERS = 8, MAX_CELLS = 32 };

/* "1 to 4 accesses and 0 to 6 operations" */
enum { MAX_ACCESSES = 4, MAX_OPERATIONS = 6 };

/* "The file: blocks of 512 bytes" */
enum {
    BLOCK = 512,
    MAX_BLOCKS = 20,
    ROWS_AT = 16,
    ROW = 48,
    ROWS_IN_BLOCK = 10,
    TAIL_AT = 496,
    CHECK_AT = 510
};

/* A row: four accesses of two bytes, then six operations of six. */
enum { ACCESSES_AT = 4, ACCESS = 2, OPERATIONS_AT = 12, OPERATION = 6 };

/* The code of "a becomes the larger of a and b", the last of the table. */
enum { LARGER = 6 };

/* "Modes: 1 read, 2 write only, 3 read and write." */
enum { MODE_READ = 1, MODE_WRITE = 2, MODE_BOTH = 3 };

enum { MAX_SCHEDULE = 65536 };

/* A version is 1 or 2 (02, Q-8). */
enum { MAX_VERSION = 2 };

_Static_assert(MAX_BLOCKS * ROWS_IN_BLOCK == MAX_TASKS, "20 full blocks hold 200 tasks");
_Static_assert(ROWS_AT + ROWS_IN_BLOCK * ROW == TAIL_AT, "the rows end where the tail begins");
_Static_assert(MAX_CELLS <= 32, "a set of cells is one 32-bit mask");
_Static_assert(MAX_TASKS <= 255, "a counter of writes or reads is one byte");

/* A file that was accepted, or rows that are to be written. */
struct flow {
    uint32_t version;
    uint32_t tasks;
    uint32_t workers;
    uint32_t cells;
    uint32_t total;
    bool retired; /* whether operation 6 is refused: see check_operations */
};

/* ---- bytes ------------------------------------------------------------- */

/* "Two-byte numbers are low byte first." */
static uint32_t get_two(const uint8_t *at)
{
    return (uint32_t)at[0] | (uint32_t)at[1] << 8;
}

static void put_two(uint8_t *at, uint32_t value)
{
    at[0] = (uint8_t)value;
    at[1] = (uint8_t)(value >> 8);
}

static bool all_zero(const uint8_t *bytes, size_t length)
{
    uint8_t any = 0;
    for (size_t i = 0; i < length; i++)
        any |= bytes[i];
    return any == 0;
}

/*
 * "A becomes (A + byte) mod 255, then B becomes (B + A) mod 255." The
 * remainder is taken once, at the end: over 5,000 bytes A stays below 2^21
 * and B below 2^32.
 */
uint32_t ref_fletcher(const uint8_t *bytes, size_t length)
{
    uint32_t a = 0;
    uint32_t b = 0;
    for (size_t i = 0; i < length; i++) {
        a += bytes[i];
        b += a;
    }
    return a % 255 | (b % 255) << 8;
}

/* ---- the check of a row: refusals 6 to 11, 17 and 18 ------------------- */

/* What the operations of a task may do, a bit for each cell. */
struct rights {
    uint32_t read;
    uint32_t write;
};

/*
 * 8: "a used access with cell or mode outside range, or an unused one not
 * zero". 9: "a cell named twice among the accesses". 8 comes first, whichever
 * access it is at. Adds the accesses' part of the flow's total.
 */
static uint32_t check_accesses(const uint8_t *row, uint32_t cells,
                               struct rights *rights, uint32_t *total)
{
    const uint8_t *access = row + ACCESSES_AT;
    uint32_t used = row[1];
    uint32_t named = 0;
    bool twice = false;

    for (uint32_t i = 0; i < used; i++, access += ACCESS) {
        uint32_t cell = access[0];
        uint32_t mode = access[1];
        if (cell >= cells || mode < MODE_READ || mode > MODE_BOTH)
            return 8;
        uint32_t bit = UINT32_C(1) << cell;
        if (named & bit)
            twice = true;
        named |= bit;
        if (mode != MODE_WRITE)
            rights->read |= bit;
        if (mode != MODE_READ)
            rights->write |= bit;
        *total += mode == MODE_READ ? 2 : 4;
    }
    if (!all_zero(access, (MAX_ACCESSES - used) * ACCESS))
        return 8;
    return twice ? 9 : 0;
}

/*
 * 10: "unknown code, a or b not below cells, or a byte that must be zero
 * (unused operations too) isn't". Code 1 has no b, and the others no k.
 */
static bool operation_formed(const uint8_t *operation, uint32_t cells)
{
    uint32_t code = operation[0];
    if (code < 1 || code > LARGER)
        return false;
    if (operation[1] >= cells || operation[2] >= cells || operation[3] != 0)
        return false;
    if (code == 1)
        return operation[2] == 0;
    return get_two(operation + 4) == 0;
}

/* The table of codes, column "Reads". */
static uint32_t cells_read(const uint8_t *operation)
{
    uint32_t a = UINT32_C(1) << operation[1];
    uint32_t b = UINT32_C(1) << operation[2];
    switch (operation[0]) {
    case 1:
        return 0;
    case 2:
    case 5:
        return b;
    default:
        return a | b;
    }
}

/*
 * 18: "Version 2 flows may not use" operation 6, "and the writer no longer
 * writes it in either version" (02, Q-9). It is "after 10 and before 11 on the
 * same task".
 *
 * 11: "an operation reads or writes against the modes". A cell of mode 2 may
 * be read "once an earlier operation of the same task has written it", so a
 * write gives the right to read to the operations after it.
 *
 * 10 comes first, whichever operation it is at, then 18, whichever it is at.
 */
static uint32_t check_operations(const uint8_t *row, const struct flow *flow,
                                 struct rights rights)
{
    const uint8_t *operation = row + OPERATIONS_AT;
    uint32_t used = row[2];
    bool larger = false;
    bool against = false;

    for (uint32_t i = 0; i < used; i++, operation += OPERATION) {
        if (!operation_formed(operation, flow->cells))
            return 10;
        if (operation[0] == LARGER)
            larger = true;
        uint32_t written = UINT32_C(1) << operation[1];
        if ((cells_read(operation) & ~rights.read) != 0 || (written & rights.write) == 0)
            against = true;
        rights.read |= written;
    }
    if (!all_zero(operation, (MAX_OPERATIONS - used) * OPERATION))
        return 10;
    if (larger && flow->retired)
        return 18;
    return against ? 11 : 0;
}

/* "a is always written" */
static bool written_by_task(const uint8_t *row, uint32_t cell)
{
    const uint8_t *operation = row + OPERATIONS_AT;

    for (uint32_t i = 0; i < row[2]; i++, operation += OPERATION)
        if (operation[1] == cell)
            return true;
    return false;
}

/* 17: "a task in which a mode 2 cell is written by no operation. Mode 3 cells
   need not be written." (02, Q-6) */
static uint32_t check_written(const uint8_t *row)
{
    const uint8_t *access = row + ACCESSES_AT;

    for (uint32_t i = 0; i < row[1]; i++, access += ACCESS)
        if (access[1] == MODE_WRITE && !written_by_task(row, access[0]))
            return 17;
    return 0;
}

/* 6 to 10 on one task, in that order, then 18, 11 and 17; 0 if none. Adds its
   part of the total. */
static uint32_t check_row(const uint8_t *row, struct flow *flow)
{
    struct rights rights = {0, 0};

    if (row[0] >= flow->workers)
        return 6;
    if (row[1] < 1 || row[1] > MAX_ACCESSES || row[2] > MAX_OPERATIONS || row[3] != 0)
        return 7;
    uint32_t number = check_accesses(row, flow->cells, &rights, &flow->total);
    if (number != 0)
        return number;
    /* "1 for each operation, and workers less 1" */
    flow->total += row[2] + flow->workers - 1;
    number = check_operations(row, flow, rights);
    return number != 0 ? number : check_written(row);
}

/* 18 is given "in readers for version 2 only" (02, Q-9). */
static bool retired_for_readers(uint32_t version)
{
    return version == 2;
}

uint32_t ref_row(const uint8_t *row, uint32_t version, uint32_t workers, uint32_t cells)
{
    struct flow flow = {.version = version,
                        .tasks = 1,
                        .workers = workers,
                        .cells = cells,
                        .retired = retired_for_readers(version)};
    return cells > MAX_CELLS ? 4 : check_row(row, &flow);
}

/* ---- the check of a file: refusals 1 to 11, 17 and 18 ------------------ */

static bool within(uint32_t value, uint32_t most)
{
    return value >= 1 && value <= most;
}

/*
 * 3: "letters, version, block number, number of blocks (length / 512) or bytes
 * 14-15 wrong", which "now covers a version that is neither 1 nor 2, or not
 * block 0's" (02, Q-8). Block 0 sets the version.
 */
static bool head_formed(const uint8_t *block, uint32_t index, uint32_t blocks,
                        struct flow *flow)
{
    if (index == 0)
        flow->version = block[4];
    return memcmp(block, "SFLW", 4) == 0 && within(block[4], MAX_VERSION) &&
           block[4] == flow->version && get_two(block + 6) == index &&
           get_two(block + 8) == blocks && get_two(block + 14) == 0;
}

static uint32_t blocks_for(uint32_t tasks)
{
    return (tasks + ROWS_IN_BLOCK - 1) / ROWS_IN_BLOCK;
}

/* "Every block but the last has ten rows; the last has the rest." */
static uint32_t rows_in(uint32_t tasks, uint32_t index)
{
    uint32_t left = tasks - index * ROWS_IN_BLOCK;
    return left < ROWS_IN_BLOCK ? left : ROWS_IN_BLOCK;
}

/*
 * 4: "tasks, workers or cells outside range or not as in block 0; blocks not
 * the fewest for the tasks; wrong rows in block". Block 0 sets the sizes.
 */
static bool sizes_formed(const uint8_t *block, uint32_t index, uint32_t blocks,
                         struct flow *flow)
{
    uint32_t tasks = get_two(block + 10);
    if (index == 0) {
        if (!within(tasks, MAX_TASKS) || !within(block[12], MAX_WORKERS) ||
            !within(block[13], MAX_CELLS) || blocks_for(tasks) != blocks)
            return false;
        flow->tasks = tasks;
        flow->workers = block[12];
        flow->cells = block[13];
    } else if (tasks != flow->tasks || block[12] != flow->workers ||
               block[13] != flow->cells) {
        return false;
    }
    return block[5] == rows_in(flow->tasks, index);
}

/* 5: "unused rows or bytes 496-509 not zero", which lie side by side. */
static bool rest_zero(const uint8_t *block)
{
    uint32_t used_to = ROWS_AT + (uint32_t)block[5] * ROW;
    return all_zero(block + used_to, CHECK_AT - used_to);
}

/* 2 to 5 on one block, in that order; 0 if none. */
static uint32_t check_block(const uint8_t *block, uint32_t index,
                            uint32_t blocks, struct flow *flow)
{
    if (get_two(block + CHECK_AT) != ref_fletcher(block, CHECK_AT))
        return 2;
    if (!head_formed(block, index, blocks, flow))
        return 3;
    if (!sizes_formed(block, index, blocks, flow))
        return 4;
    return rest_zero(block) ? 0 : 5;
}

/* The row of a task, counted from 0 here, in an accepted file. */
static const uint8_t *row_at(const uint8_t *file, uint32_t index)
{
    return file + index / ROWS_IN_BLOCK * BLOCK + ROWS_AT + index % ROWS_IN_BLOCK * ROW;
}

/*
 * "Order: 1; then 2 to 5 on block 0, then on block 1, and so on; then 6 to 11
 * on task 1, then task 2, and so on. The first one met is given." 17 is
 * "directly after 11 on the same task and before 6 on the next" (02, Q-6). 18
 * is "after 10 and before 11 on the same task" (02, Q-9).
 */
static uint32_t check_file(const uint8_t *file, size_t file_len,
                           struct flow *flow, uint32_t *place)
{
    *flow = (struct flow){0};
    *place = 0;
    if (file_len == 0 || file_len > MAX_BLOCKS * BLOCK || file_len % BLOCK != 0)
        return 1;

    uint32_t blocks = (uint32_t)(file_len / BLOCK);
    for (uint32_t index = 0; index < blocks; index++) {
        uint32_t number = check_block(file + index * BLOCK, index, blocks, flow);
        if (number != 0) {
            *place = index;
            return number;
        }
    }
    flow->retired = retired_for_readers(flow->version);
    for (uint32_t index = 0; index < flow->tasks; index++) {
        uint32_t number = check_row(row_at(file, index), flow);
        if (number != 0) {
            *place = index + 1;
            return number;
        }
    }
    return 0;
}

uint32_t ref_check(const uint8_t *file, size_t file_len,
                   sflw_check_answer *answer)
{
    struct flow flow;
    uint32_t place;
    uint32_t number = check_file(file, file_len, &flow, &place);

    if (number != 0)
        *answer = (sflw_check_answer){.number = number, .place = place};
    else
        *answer = (sflw_check_answer){.tasks = flow.tasks,
                                      .workers = flow.workers,
                                      .cells = flow.cells,
                                      .total = flow.total,
                                      .version = flow.version};
    return number;
}

/* ---- the reader -------------------------------------------------------- */

/* 1 to 11, 17 and 18 of the file, then "the reader 16". */
static uint32_t check_read(const uint8_t *file, size_t file_len, size_t rows_len,
                           struct flow *flow, uint32_t *place)
{
    uint32_t number = check_file(file, file_len, flow, place);
    if (number == 0 && rows_len < flow->tasks * ROW)
        return 16;
    return number;
}

uint32_t ref_read(const uint8_t *file, size_t file_len,
                  uint8_t *rows, size_t rows_len,
                  sflw_read_answer *answer)
{
    struct flow flow;
    uint32_t place;
    uint32_t number = check_read(file, file_len, rows_len, &flow, &place);

    if (number != 0) {
        *answer = (sflw_read_answer){.number = number, .place = place};
        return number;
    }
    uint32_t blocks = blocks_for(flow.tasks);
    for (uint32_t index = 0; index < blocks; index++)
        memcpy(rows + index * ROWS_IN_BLOCK * ROW, file + index * BLOCK + ROWS_AT,
               rows_in(flow.tasks, index) * ROW);
    *answer = (sflw_read_answer){.bytes = flow.tasks * ROW,
                                 .tasks = flow.tasks,
                                 .workers = flow.workers,
                                 .cells = flow.cells,
                                 .version = flow.version};
    return 0;
}

/* ---- the writer -------------------------------------------------------- */

/*
 * "The writer, given rows, workers and cells, has 15, 4, 6 to 11, 16." With 11
 * comes 17: it "holds for every call that checks a flow" (02, Q-6). The writer
 * "is told which to write" of the versions, and "gives 22 for another version,
 * after 15 and before 4" (02, Q-8). 18 is given "in the writer for both
 * versions" (02, Q-9).
 */
static uint32_t check_write(const uint8_t *rows, size_t rows_len,
                            uint32_t version, uint32_t workers, uint32_t cells,
                            size_t out_len, struct flow *flow, uint32_t *place)
{
    *place = 0;
    if (rows_len == 0 || rows_len > MAX_TASKS * ROW || rows_len % ROW != 0)
        return 15;
    if (!within(version, MAX_VERSION))
        return 22;
    if (!within(workers, MAX_WORKERS) || !within(cells, MAX_CELLS))
        return 4;
    *flow = (struct flow){version, (uint32_t)(rows_len / ROW), workers, cells, 0, true};
    for (uint32_t index = 0; index < flow->tasks; index++) {
        uint32_t number = check_row(rows + index * ROW, flow);
        if (number != 0) {
            *place = index + 1;
            return number;
        }
    }
    return out_len < blocks_for(flow->tasks) * BLOCK ? 16 : 0;
}

/* The table of 01, "The file"; rows are those of this block. */
static void fill_block(uint8_t *block, const uint8_t *rows, uint32_t index,
                       const struct flow *flow)
{
    uint32_t used = rows_in(flow->tasks, index);

    memcpy(block, "SFLW", 4);
    block[4] = (uint8_t)flow->version;
    block[5] = (uint8_t)used;
    put_two(block + 6, index);
    put_two(block + 8, blocks_for(flow->tasks));
    put_two(block + 10, flow->tasks);
    block[12] = (uint8_t)flow->workers;
    block[13] = (uint8_t)flow->cells;
    put_two(block + 14, 0);
    memcpy(block + ROWS_AT, rows, used * ROW);
    memset(block + ROWS_AT + used * ROW, 0, CHECK_AT - ROWS_AT - used * ROW);
    put_two(block + CHECK_AT, ref_fletcher(block, CHECK_AT));
}

uint32_t ref_write(const uint8_t *rows, size_t rows_len,
                   uint32_t version, uint32_t workers, uint32_t cells,
                   uint8_t *out, size_t out_len,
                   sflw_write_answer *answer)
{
    struct flow flow;
    uint32_t place;
    uint32_t number = check_write(rows, rows_len, version, workers, cells, out_len, &flow, &place);

    if (number != 0) {
        *answer = (sflw_write_answer){.number = number, .place = place};
        return number;
    }
    uint32_t blocks = blocks_for(flow.tasks);
    for (uint32_t index = 0; index < blocks; index++)
        fill_block(out + index * BLOCK, rows + index * ROWS_IN_BLOCK * ROW, index, &flow);
    *answer = (sflw_write_answer){.bytes = blocks * BLOCK};
    return 0;
}

/* ---- the plain run ----------------------------------------------------- */

/* "In a version 2 flow, operation 5 exchanges the two bytes of the low half and
   keeps the high half of b; in version 1 it clears it" (02, Q-8). */
static uint32_t swapped(uint32_t b, uint32_t version)
{
    uint32_t high = version == 1 ? 0 : b & 0xffff0000;
    return high | (b & 0xff) << 8 | (b >> 8 & 0xff);
}

/* The table of codes, column "Effect". */
static void operate(const uint8_t *operation, uint32_t version, uint32_t *cells)
{
    uint32_t *a = cells + operation[1];
    uint32_t b = cells[operation[2]];
    switch (operation[0]) {
    case 1:
        *a = get_two(operation + 4);
        break;
    case 2:
        *a = b;
        break;
    case 3:
        *a += b;
        break;
    case 4:
        *a -= b;
        break;
    case 5:
        *a = swapped(b, version);
        break;
    default: /* LARGER */
        if (*a < b)
            *a = b;
        break;
    }
}

/* 1 to 11, 17 and 18 of the file, then "the plain run 12 only". */
static uint32_t check_start(const uint8_t *file, size_t file_len, size_t cells_len,
                            struct flow *flow, uint32_t *place)
{
    uint32_t number = check_file(file, file_len, flow, place);
    if (number == 0 && cells_len != flow->cells)
        return 12;
    return number;
}

uint32_t ref_plain(const uint8_t *file, size_t file_len,
                   uint32_t *cells, size_t cells_len,
                   sflw_plain_answer *answer)
{
    struct flow flow;
    uint32_t place;
    uint32_t number = check_start(file, file_len, cells_len, &flow, &place);

    *answer = (sflw_plain_answer){.number = number, .place = place};
    if (number != 0)
        return number;
    for (uint32_t index = 0; index < flow.tasks; index++) {
        const uint8_t *row = row_at(file, index);
        for (uint32_t i = 0; i < row[2]; i++)
            operate(row + OPERATIONS_AT + i * OPERATION, flow.version, cells);
    }
    return 0;
}

/* ---- the stepped run --------------------------------------------------- */

/* Two numbers for a cell: the last write, and the reads since it. */
struct counters {
    uint8_t last_write;
    uint8_t reads;
};

/* What a worker tries when it is named next. */
enum phase {
    OTHER,      /* register a task of another owner */
    WAIT_WRITE, /* wait for the last write */
    WAIT_READS, /* a write's second wait: for the reads since */
    OPERATE,    /* make an operation */
    END,        /* a read's end, or the first of a write's two */
    END_WRITE,  /* the second: post the last write */
    PAST        /* past the last task */
};

/* What a step answers that is not held. One that is held answers why: one of
   the reasons of sflw.h. */
enum { ADVANCED = SFLW_NEVER_HELD };

/* Why a step was held, and the cell where the reason names one. */
struct held {
    uint8_t reason;
    uint8_t cell;
};

/* Where a worker is: the task with its row, the phase, and which access or
   operation of the task is next. Then its latest held step, and its private
   row of counters. */
struct worker {
    const uint8_t *row;
    uint8_t name;
    uint8_t task;
    uint8_t phase;
    uint8_t index;
    struct held latest;
    struct counters private[MAX_CELLS];
};

struct run {
    const uint8_t *file;
    uint32_t *cells;
    uint32_t version;
    uint32_t tasks;
    uint32_t done;
    uint32_t past;
    struct counters shared[MAX_CELLS];
    struct worker workers[MAX_WORKERS];
};

static void enter_task(struct run *run, struct worker *worker, uint32_t task)
{
    worker->task = (uint8_t)task;
    worker->index = 0;
    if (task > run->tasks) {
        worker->phase = PAST;
        run->past++;
        return;
    }
    worker->row = row_at(run->file, task - 1);
    worker->phase = worker->row[0] == worker->name ? WAIT_WRITE : OTHER;
}

/* The access that the worker waits for or ends. */
static const uint8_t *next_access(const struct worker *worker)
{
    return worker->row + ACCESSES_AT + worker->index * ACCESS;
}

/* "a read adds 1 to reads; a write sets reads to 0 and last write to this
   task's number" */
static void register_access(struct worker *worker, const uint8_t *access)
{
    struct counters *private = &worker->private[access[0]];
    if (access[1] == MODE_READ) {
        private->reads++;
    } else {
        private->reads = 0;
        private->last_write = worker->task;
    }
}

static void register_task(struct run *run, struct worker *worker)
{
    for (uint32_t i = 0; i < worker->row[1]; i++)
        register_access(worker, worker->row + ACCESSES_AT + i * ACCESS);
    enter_task(run, worker, worker->task + 1u);
}

/* "Then the ends, by access in listed order". */
static void start_ends(struct worker *worker)
{
    worker->phase = END;
    worker->index = 0;
}

/* The waits of one access have passed. */
static void next_wait(struct worker *worker)
{
    if (++worker->index < worker->row[1]) {
        worker->phase = WAIT_WRITE;
    } else if (worker->row[2] != 0) {
        worker->phase = OPERATE;
        worker->index = 0;
    } else {
        start_ends(worker);
    }
}

/* "A held step shall say one of three things" (02, Q-1). It is the worker's
   latest from now on. */
static uint32_t hold(struct worker *worker, uint8_t reason, uint8_t cell)
{
    worker->latest = (struct held){reason, cell};
    return reason;
}

/* "passing if private and shared last write are equal" */
static uint32_t wait_write(struct run *run, struct worker *worker)
{
    const uint8_t *access = next_access(worker);
    if (worker->private[access[0]].last_write != run->shared[access[0]].last_write)
        return hold(worker, SFLW_WRITE_DIFFERS, access[0]);
    if (access[1] == MODE_READ)
        next_wait(worker);
    else
        worker->phase = WAIT_READS;
    return ADVANCED;
}

/* "then a second, passing if private and shared reads are equal" */
static uint32_t wait_reads(struct run *run, struct worker *worker)
{
    const uint8_t *access = next_access(worker);
    if (worker->private[access[0]].reads != run->shared[access[0]].reads)
        return hold(worker, SFLW_READS_DIFFER, access[0]);
    next_wait(worker);
    return ADVANCED;
}

static void make_operation(struct run *run, struct worker *worker)
{
    operate(worker->row + OPERATIONS_AT + worker->index * OPERATION, run->version, run->cells);
    if (++worker->index == worker->row[2])
        start_ends(worker);
}

/* The ends of one access have been made. "A task is done once the last end of
   its last access has been made" (02, Q-3). "After the last one it goes to the
   next task." */
static void next_end(struct run *run, struct worker *worker)
{
    worker->phase = END;
    if (++worker->index == worker->row[1]) {
        run->done++;
        enter_task(run, worker, worker->task + 1u);
    }
}

/* "A read: one step, 1 added to shared and private reads. A write: one step
   sets shared reads to 0". */
static void end_access(struct run *run, struct worker *worker)
{
    const uint8_t *access = next_access(worker);
    if (access[1] == MODE_READ) {
        run->shared[access[0]].reads++;
        register_access(worker, access);
        next_end(run, worker);
    } else {
        run->shared[access[0]].reads = 0;
        worker->phase = END_WRITE;
    }
}

/* "a second sets shared last write to this task and makes the private update" */
static void end_write(struct run *run, struct worker *worker)
{
    const uint8_t *access = next_access(worker);
    run->shared[access[0]].last_write = worker->task;
    register_access(worker, access);
    next_end(run, worker);
}

/* One step of the worker named: ADVANCED, or why it is held. */
static uint32_t step(struct run *run, struct worker *worker)
{
    switch (worker->phase) {
    case OTHER:
        register_task(run, worker);
        return ADVANCED;
    case WAIT_WRITE:
        return wait_write(run, worker);
    case WAIT_READS:
        return wait_reads(run, worker);
    case OPERATE:
        make_operation(run, worker);
        return ADVANCED;
    case END:
        end_access(run, worker);
        return ADVANCED;
    case END_WRITE:
        end_write(run, worker);
        return ADVANCED;
    default: /* PAST */
        return hold(worker, SFLW_PAST_LAST, 0);
    }
}

/* "All start at 0, and each worker starts at task 1." */
static void start(struct run *run, const uint8_t *file, uint32_t *cells,
                  const struct flow *flow)
{
    memset(run, 0, sizeof *run);
    run->file = file;
    run->cells = cells;
    run->version = flow->version;
    run->tasks = flow->tasks;
    for (uint32_t i = 0; i < flow->workers; i++) {
        run->workers[i].name = (uint8_t)i;
        enter_task(run, &run->workers[i], 1);
    }
}

/* 1 to 11, 17, 18 and 12, then 13, then 14 at the first byte that names no
   worker. */
static uint32_t check_run(const uint8_t *file, size_t file_len, size_t cells_len,
                          const uint8_t *schedule, size_t schedule_len,
                          struct flow *flow, uint32_t *place)
{
    uint32_t number = check_start(file, file_len, cells_len, flow, place);
    if (number != 0)
        return number;
    if (schedule_len > MAX_SCHEDULE)
        return 13;
    for (uint32_t i = 0; i < schedule_len; i++) {
        if (schedule[i] >= flow->workers) {
            *place = i;
            return 14;
        }
    }
    return 0;
}

/*
 * A step for each byte of the schedule. 02, Q-1: "The run's answer carries a
 * count of each, and the three add up to held."
 */
static void make_steps(struct run *run, const uint8_t *schedule, size_t schedule_len,
                       sflw_run_answer *answer)
{
    uint32_t advanced = 0;
    uint32_t past_last = 0;
    uint32_t write_differs = 0;
    uint32_t reads_differ = 0;

    for (size_t i = 0; i < schedule_len; i++) {
        switch (step(run, &run->workers[schedule[i]])) {
        case ADVANCED:
            advanced++;
            break;
        case SFLW_PAST_LAST:
            past_last++;
            break;
        case SFLW_WRITE_DIFFERS:
            write_differs++;
            break;
        default: /* SFLW_READS_DIFFER */
            reads_differ++;
            break;
        }
    }
    *answer = (sflw_run_answer){.advanced = advanced,
                                .held = past_last + write_differs + reads_differ,
                                .past_last = past_last,
                                .write_differs = write_differs,
                                .reads_differ = reads_differ};
}

/* 02, Q-1: "for each worker, the reason and cell of its latest held step, or
   that it had none". A worker that the flow does not have had none. */
static void say_latest(const struct run *run, sflw_run_answer *answer)
{
    for (uint32_t i = 0; i < MAX_WORKERS; i++) {
        answer->latest[i].reason = run->workers[i].latest.reason;
        answer->latest[i].cell = run->workers[i].latest.cell;
    }
}

uint32_t ref_run(const uint8_t *file, size_t file_len,
                 uint32_t *cells, size_t cells_len,
                 const uint8_t *schedule, size_t schedule_len,
                 sflw_run_answer *answer)
{
    struct flow flow;
    struct run run;
    uint32_t place;
    uint32_t number = check_run(file, file_len, cells_len, schedule, schedule_len, &flow, &place);

    if (number != 0) {
        *answer = (sflw_run_answer){.number = number, .place = place};
        return number;
    }
    start(&run, file, cells, &flow);
    make_steps(&run, schedule, schedule_len, answer);
    answer->done = run.done;
    answer->finished = run.past == flow.workers;
    say_latest(&run, answer);
    return 0;
}
