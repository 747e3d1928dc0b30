#include "larger_cases.h"

#include <string.h>

/* ---- flows ------------------------------------------------------------- */

void put_flow(struct test_case *made, const struct sample *flow)
{
    made->version = flow->version;
    made->workers = flow->workers;
    made->cells = flow->cells;
    if (made->call == CALL_WRITE) {
        made->input_len = (size_t)flow->tasks * ROW_BYTES;
        memcpy(made->input, flow->rows, made->input_len);
        made->output_len = (size_t)blocks_of(flow->tasks) * BLOCK_BYTES;
    } else {
        made->input_len = make_file(flow, made->input);
    }
    if (made->call == CALL_READ)
        made->output_len = (size_t)flow->tasks * ROW_BYTES;
    if (made->call == CALL_PLAIN || made->call == CALL_RUN)
        made->output_len = 4 * (size_t)flow->cells;
}

static void flow_a(struct test_case *made)
{
    struct sample flow;
    make_flow_a(&flow);
    put_flow(made, &flow);
}

void one_operation(struct test_case *made, uint32_t version, uint8_t code)
{
    struct sample flow = {version, 1, 1, 2, {0, 2, 1, 0, 0, 3, 1, 1}};
    flow.rows[12] = code;
    flow.rows[14] = 1;
    put_flow(made, &flow);
}

static void operation_3(struct test_case *made)
{
    one_operation(made, 1, 3);
}

static void operation_4(struct test_case *made)
{
    one_operation(made, 1, 4);
}

static void operation_5(struct test_case *made)
{
    one_operation(made, 1, 5);
}

/* One task that reads cell 0 and has no operation. */
static void no_operation(struct test_case *made)
{
    struct sample flow = {1, 1, 1, 1, {0, 1, 0, 0, 0, 1}};
    put_flow(made, &flow);
}

/* ---- the last cells of 32 ---------------------------------------------- */

/* One task of one worker with 32 cells, its row given. */
static void one_row(struct test_case *made, const uint8_t *row, size_t length)
{
    struct sample flow = {1, 1, 1, MOST_CELLS, {0}};
    memcpy(flow.rows, row, length);
    put_flow(made, &flow);
}

/* Cell 31 write only, cell 30 read; 31 becomes what 30 holds. */
static void cells_30_and_31(struct test_case *made)
{
    static const uint8_t row[] = {0, 2, 1, 0, 31, 2, 30, 1, 0, 0, 0, 0, 2, 31, 30};
    one_row(made, row, sizeof row);
}

static void cell_31_twice(struct test_case *made)
{
    static const uint8_t row[] = {0, 2, 0, 0, 31, 1, 31, 2};
    one_row(made, row, sizeof row);
}

static void cell_31_read_at_once(struct test_case *made)
{
    static const uint8_t row[] = {0, 1, 1, 0, 31, 2, 0, 0, 0, 0, 0, 0, 2, 31, 31};
    one_row(made, row, sizeof row);
}

static void cell_31_read_once_written(struct test_case *made)
{
    static const uint8_t row[] = {0, 1, 2, 0, 31, 2,  0,  0, 0, 0, 0, 0,
                                  1, 31, 0, 0, 7, 0, 2, 31, 31};
    one_row(made, row, sizeof row);
}

/* Cell 30 may be written and cell 31 only read: 31 is written after 30. */
static void cell_31_written(struct test_case *made)
{
    static const uint8_t row[] = {0, 2, 2, 0, 30, 3, 31, 1, 0, 0, 0, 0,
                                  1, 30, 0, 0, 7, 0, 1, 31, 0, 0, 7};
    one_row(made, row, sizeof row);
}

/* ---- a declared write that never happens ------------------------------- */

/* Flow A without the operation of task 1, which declares cell 0 write only. */
static void make_unwritten(struct sample *flow)
{
    make_flow_a(flow);
    flow->rows[2] = 0;
    memset(flow->rows + 12, 0, 6);
}

static void unwritten(struct test_case *made)
{
    struct sample flow;
    make_unwritten(&flow);
    put_flow(made, &flow);
}

/* And task 2 has an owner that is no worker. */
static void unwritten_beside_6(struct test_case *made)
{
    struct sample flow;
    make_unwritten(&flow);
    flow.rows[ROW_BYTES] = 2;
    put_flow(made, &flow);
}

/* And task 2 writes cell 0, which it may only read. */
static void unwritten_beside_11(struct test_case *made)
{
    struct sample flow;
    make_unwritten(&flow);
    flow.rows[ROW_BYTES + 13] = 0;
    put_flow(made, &flow);
}

static void unwritten_a_byte_short(struct test_case *made)
{
    unwritten(made);
    made->output_len--;
}

static void unwritten_with_four_cells(struct test_case *made)
{
    unwritten(made);
    made->output_len = 16;
}

/* Flow A whose task 2 writes cell 0, which it may only read, and so not cell 1,
   which it declares write only. */
static void another_cell_written(struct test_case *made)
{
    struct sample flow;
    make_flow_a(&flow);
    flow.rows[ROW_BYTES + 13] = 0;
    put_flow(made, &flow);
}

/* Flow A whose task 1 has no operation by its count, and one all the same. */
static void past_the_count(struct test_case *made)
{
    struct sample flow;
    make_flow_a(&flow);
    flow.rows[2] = 0;
    put_flow(made, &flow);
}

/* The zeros of the operations that it has not are no writes of cell 0. */
static void no_write_of_cell_0(struct test_case *made)
{
    static const uint8_t row[] = {0, 1, 0, 0, 0, 2};
    one_row(made, row, sizeof row);
}

/* Six times a constant into cell 5, and each time b is 0: no write of cell 0. */
static void b_is_no_write(struct test_case *made)
{
    static const uint8_t row[] = {0, 2, 6, 0, 0, 2, 5, 3, 0, 0, 0, 0,
                                  1, 5, 0, 0, 7, 0, 1, 5, 0, 0, 7, 0, 1, 5, 0, 0, 7, 0,
                                  1, 5, 0, 0, 7, 0, 1, 5, 0, 0, 7, 0, 1, 5, 0, 0, 7};
    one_row(made, row, sizeof row);
}

/* Cell 31 write only and not written: the second access, after one that is
   written; and the fourth, after two that are and one that is read. */
static void second_access_unwritten(struct test_case *made)
{
    static const uint8_t row[] = {0, 2, 1, 0, 15, 2, 31, 2, 0, 0, 0, 0, 1, 15, 0, 0, 7};
    one_row(made, row, sizeof row);
}

static void fourth_access_unwritten(struct test_case *made)
{
    static const uint8_t row[] = {0, 4, 3, 0, 15, 2, 6, 1, 23, 2, 31, 2,
                                  1, 15, 0, 0, 7, 0, 2, 23, 6, 0, 0, 0, 3, 15, 23};
    one_row(made, row, sizeof row);
}

/* Cell 31 write only and read, but not written. */
static void read_and_unwritten(struct test_case *made)
{
    static const uint8_t row[] = {0, 2, 1, 0, 31, 2, 5, 3, 0, 0, 0, 0, 2, 5, 31};
    one_row(made, row, sizeof row);
}

/* Cell 31 write only, and written by the first of two operations; by the last
   of six. */
static void written_by_the_first(struct test_case *made)
{
    static const uint8_t row[] = {0, 2, 2, 0, 31, 2, 5, 3, 0, 0, 0, 0,
                                  1, 31, 0, 0, 7, 0, 2, 5, 31};
    one_row(made, row, sizeof row);
}

static void written_by_the_sixth(struct test_case *made)
{
    static const uint8_t row[] = {0, 2, 6, 0, 31, 2, 5, 3, 0, 0, 0, 0,
                                  1, 5, 0, 0, 7, 0, 3, 5, 5, 0, 0, 0, 4, 5, 5, 0, 0, 0,
                                  6, 5, 5, 0, 0, 0, 5, 5, 5, 0, 0, 0, 2, 31, 5};
    one_row(made, row, sizeof row);
}

/* One task of one worker with two cells: cell 1 becomes 7, then twice that, and
   then cell 0, which is write only, becomes cell 1. */
static void written_by_the_third(struct test_case *made)
{
    struct sample flow = {1, 1, 1, 2, {0, 2, 3, 0, 0, 2, 1, 3, 0, 0, 0, 0,
                                       1, 1, 0, 0, 7, 0, 3, 1, 1, 0, 0, 0, 2, 0, 1}};
    put_flow(made, &flow);
}

/* Two tasks that declare cell 1 write only: the first sets it and the second
   does not, or the other way round. */
static void two_tasks(struct test_case *made, uint32_t writer)
{
    static const uint8_t operation[] = {1, 1, 0, 0, 7};
    struct sample flow = {1, 2, 1, 2, {0, 1, 0, 0, 1, 2}};
    memcpy(flow.rows + ROW_BYTES, flow.rows, ROW_BYTES);
    flow.rows[writer * ROW_BYTES + 2] = 1;
    memcpy(flow.rows + writer * ROW_BYTES + 12, operation, sizeof operation);
    put_flow(made, &flow);
}

static void written_by_the_task_before(struct test_case *made)
{
    two_tasks(made, 0);
}

static void written_by_the_task_after(struct test_case *made)
{
    two_tasks(made, 1);
}

/* 200 tasks that set cell 0, but for the last. */
static void last_task_unwritten(struct test_case *made)
{
    static const uint8_t row[] = {0, 1, 1, 0, 0, 2, 0, 0, 0, 0, 0, 0, 1, 0, 0, 0, 7};
    struct sample flow = {1, MOST_TASKS, 1, 1, {0}};
    for (uint32_t i = 0; i < MOST_TASKS; i++)
        memcpy(flow.rows + i * ROW_BYTES, row, sizeof row);
    uint8_t *last = flow.rows + (MOST_TASKS - 1) * ROW_BYTES;
    last[2] = 0;
    memset(last + 12, 0, 6);
    put_flow(made, &flow);
}

/* One task with cell 0 of mode 3 and no operation. */
static void mode_3_unwritten(struct test_case *made)
{
    struct sample flow = {1, 1, 1, 1, {0, 1, 0, 0, 0, 3}};
    put_flow(made, &flow);
}

/* Cell 31 of mode 3 is read and not written; cell 5 is write only and written. */
static void mode_3_only_read(struct test_case *made)
{
    static const uint8_t row[] = {0, 2, 1, 0, 31, 3, 5, 2, 0, 0, 0, 0, 2, 5, 31};
    one_row(made, row, sizeof row);
}

/* ---- limits ------------------------------------------------------------ */

/* Blocks with ten full tasks each, 8 workers and 32 cells. */
static void full_blocks(struct test_case *made, uint32_t version, uint32_t blocks)
{
    struct random random = random_of_case(200, 8);
    struct sample flow;
    make_full_flow(&random, &flow, 10 * blocks, MOST_WORKERS, MOST_CELLS, FIVE_CODES);
    flow.version = version;
    put_flow(made, &flow);
}

static void put_largest(struct test_case *made)
{
    full_blocks(made, 1, MOST_BLOCKS);
}

static void tasks_201(struct test_case *made)
{
    put_largest(made);
    for (size_t at = 0; at < made->input_len; at += BLOCK_BYTES) {
        made->input[at + 10] = 201;
        put_check(made->input + at);
    }
}

static void workers_9(struct test_case *made)
{
    put_largest(made);
    made->workers = 9;
    if (made->call == CALL_WRITE)
        return;
    for (size_t at = 0; at < made->input_len; at += BLOCK_BYTES) {
        made->input[at + 12] = 9;
        put_check(made->input + at);
    }
}

static void cells_33(struct test_case *made)
{
    put_largest(made);
    made->cells = 33;
    if (made->call == CALL_WRITE)
        return;
    for (size_t at = 0; at < made->input_len; at += BLOCK_BYTES) {
        made->input[at + 13] = 33;
        put_check(made->input + at);
    }
}

static void rows_201(struct test_case *made)
{
    put_largest(made);
    memcpy(made->input + made->input_len, made->input, ROW_BYTES);
    made->input_len += ROW_BYTES;
}

static void zeros(struct test_case *made, size_t length)
{
    made->input_len = length;
    memset(made->input, 0, length);
}

static void zeros_10240(struct test_case *made)
{
    zeros(made, 10240);
}

static void zeros_10752(struct test_case *made)
{
    zeros(made, 10752);
}

static void no_bytes(struct test_case *made)
{
    zeros(made, 0);
}

static void long_schedule(struct test_case *made, size_t length)
{
    flow_a(made);
    made->schedule_len = length;
    for (size_t i = 0; i < length; i++)
        made->schedule[i] = (uint8_t)(i % 2);
}

static void schedule_65536(struct test_case *made)
{
    long_schedule(made, 65536);
}

static void schedule_65537(struct test_case *made)
{
    long_schedule(made, 65537);
}

/* 01's run program: each of the two workers in turn, the total times over. */
static void run_program(struct test_case *made)
{
    long_schedule(made, 2 * 22);
}

static void short_output(struct test_case *made)
{
    flow_a(made);
    made->output_len--;
}

static void four_cells(struct test_case *made)
{
    flow_a(made);
    made->output_len = 16;
}

/* ---- why a worker was held --------------------------------------------- */

/* A row up to its operations, of which it has none: owner, accesses, two
   zeros, and four accesses (cell, mode). */
enum { HEAD_BYTES = 12 };

static void put_tasks(struct test_case *made, uint32_t workers, uint32_t cells,
                      const uint8_t heads[][HEAD_BYTES], uint32_t tasks)
{
    struct sample flow = {1, tasks, workers, cells, {0}};
    for (uint32_t i = 0; i < tasks; i++)
        memcpy(flow.rows + i * ROW_BYTES, heads[i], HEAD_BYTES);
    put_flow(made, &flow);
}

/* Worker 1 writes what worker 0 reads before it. */
static void write_after_read(struct test_case *made)
{
    static const uint8_t heads[][HEAD_BYTES] = {{0, 1, 0, 0, 0, 1}, {1, 1, 0, 0, 0, 3}};
    put_tasks(made, 2, 1, heads, 2);
}

/* Worker 1 reads what worker 0 reads before it. */
static void read_after_read(struct test_case *made)
{
    static const uint8_t heads[][HEAD_BYTES] = {{0, 1, 0, 0, 0, 1}, {1, 1, 0, 0, 0, 1}};
    put_tasks(made, 2, 1, heads, 2);
}

/* Worker 0 writes cell 2, and then reads cell 1. Worker 1 reads cell 2 and
   writes cell 1, in this order. */
static void two_waits(struct test_case *made)
{
    static const uint8_t heads[][HEAD_BYTES] = {
        {0, 1, 0, 0, 2, 3}, {0, 1, 0, 0, 1, 1}, {1, 2, 0, 0, 2, 1, 1, 3}};
    put_tasks(made, 2, 3, heads, 3);
}

/* Worker 0 has one access, in this mode, to the cell of worker 1's fourth. */
static void fourth_access(struct test_case *made, uint8_t mode, uint8_t cell)
{
    const uint8_t heads[][HEAD_BYTES] = {
        {0, 1, 0, 0, cell, mode}, {1, 4, 0, 0, 15, 1, 16, 3, 17, 1, cell, 3}};
    put_tasks(made, 2, MOST_CELLS, heads, 2);
}

static void fourth_after_write_of_31(struct test_case *made)
{
    fourth_access(made, 3, 31);
}

static void fourth_after_read_of_31(struct test_case *made)
{
    fourth_access(made, 1, 31);
}

static void fourth_after_write_of_0(struct test_case *made)
{
    fourth_access(made, 3, 0);
}

static void fourth_after_read_of_0(struct test_case *made)
{
    fourth_access(made, 1, 0);
}

/* Worker 0 writes cell 31, then reads it; the last of 8 workers writes it. */
static void last_worker(struct test_case *made)
{
    static const uint8_t heads[][HEAD_BYTES] = {
        {0, 1, 0, 0, 31, 3}, {0, 1, 0, 0, 31, 1}, {7, 1, 0, 0, 31, 3}};
    put_tasks(made, MOST_WORKERS, MOST_CELLS, heads, 3);
}

/* Worker 0 writes four cells, then reads four others; each of the workers 1 to
   7 waits for one of the eight. */
static void eight_workers(struct test_case *made)
{
    static const uint8_t heads[][HEAD_BYTES] = {
        {0, 4, 0, 0, 10, 3, 20, 3, 31, 3, 0, 3},
        {0, 4, 0, 0, 1, 1, 11, 1, 21, 1, 30, 1},
        {1, 1, 0, 0, 10, 1},
        {2, 1, 0, 0, 1, 3},
        {3, 1, 0, 0, 20, 1},
        {4, 1, 0, 0, 11, 3},
        {5, 1, 0, 0, 31, 3},
        {6, 1, 0, 0, 30, 3},
        {7, 1, 0, 0, 0, 1},
    };
    put_tasks(made, MOST_WORKERS, MOST_CELLS, heads, 9);
}

/* ---- two versions of the swap ------------------------------------------ */

static void flow_a_of_2(struct test_case *made)
{
    struct sample flow;
    make_flow_a(&flow);
    flow.version = 2;
    put_flow(made, &flow);
}

static void operation_5_of_2(struct test_case *made)
{
    one_operation(made, 2, 5);
}

/* One task of one worker: cell 0 becomes itself swapped. */
static void swap_in_place(struct test_case *made, uint32_t version)
{
    struct sample flow = {version, 1, 1, 1, {0, 1, 1, 0, 0, 3, 0, 0, 0, 0, 0, 0, 5}};
    put_flow(made, &flow);
}

static void in_place_of_1(struct test_case *made)
{
    swap_in_place(made, 1);
}

static void in_place_of_2(struct test_case *made)
{
    swap_in_place(made, 2);
}

/* One task of one worker: cell 0, which is write only, becomes cell 1 swapped. */
static void swap_into_mode_2(struct test_case *made)
{
    struct sample flow = {2, 1, 1, 2, {0, 2, 1, 0, 0, 2, 1, 1, 0, 0, 0, 0, 5, 0, 1}};
    put_flow(made, &flow);
}

/* Task 1 makes 74565 of cell 0, a field in each half, and task 2 4294967295 of
   cell 2. Task 3 swaps cell 0 into cell 2, and task 4 copies that to cell 3. */
static void two_fields(struct test_case *made, uint32_t version)
{
    static const uint8_t rows[4][ROW_BYTES] = {
        {0, 2, 5, 0, 0, 2, 1, 2, 0, 0, 0, 0,
         1, 0, 0, 0, 255, 255, 1, 1, 0, 0, 1, 0, 3, 0, 1, 0, 0, 0, 1, 1, 0, 0, 69, 35, 3, 0, 1},
        {1, 2, 3, 0, 1, 2, 2, 2, 0, 0, 0, 0, 1, 1, 0, 0, 1, 0, 1, 2, 0, 0, 0, 0, 4, 2, 1},
        {2, 2, 1, 0, 0, 1, 2, 2, 0, 0, 0, 0, 5, 2, 0},
        {0, 2, 1, 0, 2, 1, 3, 2, 0, 0, 0, 0, 2, 3, 2}};
    struct sample flow = {version, 4, 3, 4, {0}};
    memcpy(flow.rows, rows, sizeof rows);
    put_flow(made, &flow);
}

static void two_fields_of_1(struct test_case *made)
{
    two_fields(made, 1);
}

static void two_fields_of_2(struct test_case *made)
{
    two_fields(made, 2);
}

/* ---- the version of a file --------------------------------------------- */

static void put_version(struct test_case *made, uint32_t index, uint8_t byte)
{
    uint8_t *block = made->input + BLOCK_BYTES * index;
    block[4] = byte;
    put_check(block);
}

/* Flow A's file with a byte in the place of its version. */
static void version_byte_0(struct test_case *made)
{
    flow_a(made);
    put_version(made, 0, 0);
}

static void version_byte_2(struct test_case *made)
{
    flow_a(made);
    put_version(made, 0, 2);
}

static void version_byte_3(struct test_case *made)
{
    flow_a(made);
    put_version(made, 0, 3);
}

static void version_byte_255(struct test_case *made)
{
    flow_a(made);
    put_version(made, 0, 255);
}

/* And the check is not put right. */
static void version_byte_3_unchecked(struct test_case *made)
{
    flow_a(made);
    made->input[4] = 3;
}

/* Three blocks, or 20, all of version 2. */
static void three_of_2(struct test_case *made)
{
    full_blocks(made, 2, 3);
}

static void largest_of_2(struct test_case *made)
{
    full_blocks(made, 2, MOST_BLOCKS);
}

/* Blocks of version 1 with one of version 2, and the other way round. */
static void block_1_of_2(struct test_case *made)
{
    full_blocks(made, 1, 2);
    put_version(made, 1, 2);
}

static void block_1_of_1(struct test_case *made)
{
    full_blocks(made, 2, 2);
    put_version(made, 1, 1);
}

static void block_0_of_2(struct test_case *made)
{
    full_blocks(made, 1, 3);
    put_version(made, 0, 2);
}

static void block_0_of_1(struct test_case *made)
{
    full_blocks(made, 2, 3);
    put_version(made, 0, 1);
}

static void block_2_of_2(struct test_case *made)
{
    full_blocks(made, 1, 3);
    put_version(made, 2, 2);
}

static void last_of_2(struct test_case *made)
{
    full_blocks(made, 1, MOST_BLOCKS);
    put_version(made, MOST_BLOCKS - 1, 2);
}

static void last_of_1(struct test_case *made)
{
    full_blocks(made, 2, MOST_BLOCKS);
    put_version(made, MOST_BLOCKS - 1, 1);
}

/* Neither 1 nor 2, in the second block. */
static void block_1_of_3(struct test_case *made)
{
    full_blocks(made, 2, 2);
    put_version(made, 1, 3);
}

/* Block 1 is of the other version, and there is more at fault: its check; its
   cells; the workers of block 0; the owner of task 1. */
static void mixed_beside_2(struct test_case *made)
{
    block_1_of_2(made);
    made->input[2 * BLOCK_BYTES - 1] ^= 1;
}

static void mixed_beside_4(struct test_case *made)
{
    block_1_of_2(made);
    made->input[BLOCK_BYTES + 13] = 31;
    put_check(made->input + BLOCK_BYTES);
}

static void mixed_after_4(struct test_case *made)
{
    block_1_of_2(made);
    made->input[12] = 9;
    put_check(made->input);
}

static void mixed_before_6(struct test_case *made)
{
    block_1_of_2(made);
    made->input[16] = 8;
    put_check(made->input);
}

/* ---- the version that the writer is told ------------------------------- */

static void told_0(struct test_case *made)
{
    flow_a(made);
    made->version = 0;
}

static void told_3(struct test_case *made)
{
    flow_a(made);
    made->version = 3;
}

/* 1 or 2 in the low byte, in the low half, in the low three bytes. */
static void told_257(struct test_case *made)
{
    flow_a(made);
    made->version = 257;
}

static void told_65538(struct test_case *made)
{
    flow_a(made);
    made->version = 65538;
}

static void told_16777217(struct test_case *made)
{
    flow_a(made);
    made->version = 16777217;
}

static void told_4294967295(struct test_case *made)
{
    flow_a(made);
    made->version = 4294967295;
}

/* Version 3, and besides: 201 rows; 9 workers; an owner that is no worker; a
   cell of mode 2 that is not written; an output that is a byte short. */
static void told_3_beside_15(struct test_case *made)
{
    rows_201(made);
    made->version = 3;
}

static void told_3_beside_4(struct test_case *made)
{
    workers_9(made);
    made->version = 3;
}

static void told_3_beside_6(struct test_case *made)
{
    told_3(made);
    made->input[0] = 2;
}

static void told_3_beside_17(struct test_case *made)
{
    unwritten(made);
    made->version = 3;
}

static void told_3_beside_16(struct test_case *made)
{
    short_output(made);
    made->version = 3;
}

/* ---- the table --------------------------------------------------------- */

#define START_A {0, 0, 5}

/* After number, place, advanced, held, done and finished a run's answer has
   how many steps were held past the last task, for the last write and for the
   reads; then the latest held step of each worker, which is one of these. */
#define NONE 0, 0
#define PAST 1, 0
#define WRITE(cell) 2, cell
#define READS(cell) 3, cell
#define NONE_OF_7 NONE, NONE, NONE, NONE, NONE, NONE, NONE

static const struct named_case other_cases[] = {
    {"flow A, total 22", CALL_CHECK, flow_a, "", START_A, {0, 0, 3, 2, 3, 22, 1}, START_A},
    {"flow A, read", CALL_READ, flow_a, "", START_A, {0, 0, 144, 3, 2, 3, 1}, START_A},
    {"flow A, written", CALL_WRITE, flow_a, "", START_A, {0, 0, 512}, START_A},
    {"P1", CALL_PLAIN, flow_a, "", START_A, {0, 0}, {4660, 13330, 13335}},
    {"P2", CALL_RUN, flow_a, "", START_A, {0, 0, 0, 0, 0, 0, 0, 0, 0, NONE, NONE},
     START_A},
    {"P3", CALL_RUN, flow_a, "11", START_A, {0, 0, 1, 1, 0, 0, 0, 1, 0, NONE, WRITE(0)},
     START_A},
    {"P4", CALL_RUN, flow_a, "000", START_A, {0, 0, 3, 0, 0, 0, 0, 0, 0, NONE, NONE},
     {4660, 0, 5}},
    {"P5", CALL_RUN, flow_a, "000011", START_A,
     {0, 0, 5, 1, 0, 0, 0, 1, 0, NONE, WRITE(0)}, {4660, 0, 5}},
    {"P5 and the last end: task 1 done", CALL_RUN, flow_a, "0000110", START_A,
     {0, 0, 6, 1, 1, 0, 0, 1, 0, NONE, WRITE(0)}, {4660, 0, 5}},
    {"P6", CALL_RUN, flow_a, "0000000", START_A,
     {0, 0, 6, 1, 1, 0, 0, 1, 0, WRITE(1), NONE}, {4660, 0, 5}},
    {"P7", CALL_RUN, flow_a, "0000001111111110000000", START_A,
     {0, 0, 22, 0, 3, 1, 0, 0, 0, NONE, NONE}, {4660, 13330, 13335}},
    {"task 2, its read ended: not done", CALL_RUN, flow_a, "000000111111", START_A,
     {0, 0, 12, 0, 1, 0}, {4660, 13330, 5}},
    {"task 2, its write's first end: not done", CALL_RUN, flow_a, "0000001111111", START_A,
     {0, 0, 13, 0, 1, 0}, {4660, 13330, 5}},
    {"task 2, its write posted: done", CALL_RUN, flow_a, "00000011111111", START_A,
     {0, 0, 14, 0, 2, 0}, {4660, 13330, 5}},
    {"P8", CALL_RUN, flow_a, "00000011111111100000000", START_A,
     {0, 0, 22, 1, 3, 1, 1, 0, 0, PAST, NONE}, {4660, 13330, 13335}},
    {"P10, operation 3", CALL_PLAIN, operation_3, "", {4294967295, 1}, {0, 0}, {0, 1}},
    {"P10, operation 4", CALL_PLAIN, operation_4, "", {0, 1}, {0, 0}, {4294967295, 1}},
    {"P10, operation 5", CALL_PLAIN, operation_5, "", {4294967295, 74565}, {0, 0},
     {17699, 74565}},
    {"the run program", CALL_RUN, run_program, NULL, {0, 0, 0},
     {0, 0, 22, 22, 3, 1, 14, 8, 0, PAST, PAST}, {4660, 13330, 13330}},
    {"no operation: not done with the last wait", CALL_RUN, no_operation, "0", {7},
     {0, 0, 1, 0, 0, 0}, {7}},
    {"no operation: done with the last end", CALL_RUN, no_operation, "00", {7},
     {0, 0, 2, 0, 1, 1}, {7}},
    {"no operation: past the only task", CALL_RUN, no_operation, "000", {7},
     {0, 0, 2, 1, 1, 1, 1, 0, 0, PAST}, {7}},
    {"held twice, and a worker never named", CALL_RUN, flow_a, "00000000", START_A,
     {0, 0, 6, 2, 1, 0, 0, 2, 0, WRITE(1), NONE}, {4660, 0, 5}},
    {"held, then advanced: the latest stays", CALL_RUN, flow_a, "11000001", START_A,
     {0, 0, 7, 1, 1, 0, 0, 1, 0, NONE, WRITE(0)}, {4660, 0, 5}},
    {"held, then finished: the latest stays", CALL_RUN, flow_a, "11000000111111110000000",
     START_A, {0, 0, 22, 1, 3, 1, 0, 1, 0, NONE, WRITE(0)}, {4660, 13330, 13335}},
    {"the reads of cell 0 differ", CALL_RUN, write_after_read, "111", {7},
     {0, 0, 2, 1, 0, 0, 0, 0, 1, NONE, READS(0)}, {7}},
    {"a read waits for no read", CALL_RUN, read_after_read, "111", {7},
     {0, 0, 3, 0, 1, 0}, {7}},
    {"held on cell 2", CALL_RUN, two_waits, "111", START_A,
     {0, 0, 2, 1, 0, 0, 0, 1, 0, NONE, WRITE(2)}, START_A},
    {"held on cell 2, then on cell 1", CALL_RUN, two_waits, "1110000111", START_A,
     {0, 0, 8, 2, 1, 0, 0, 1, 1, NONE, READS(1)}, START_A},
    {"held on two cells, then past the last task", CALL_RUN, two_waits, "11100001110011111",
     START_A, {0, 0, 14, 3, 3, 0, 1, 1, 1, NONE, PAST}, START_A},
    {"a fourth access: the last write of cell 31", CALL_RUN, fourth_after_write_of_31, "111111",
     START_A, {0, 0, 5, 1, 0, 0, 0, 1, 0, NONE, WRITE(31)}, START_A},
    {"a fourth access: the reads of cell 31", CALL_RUN, fourth_after_read_of_31, "1111111",
     START_A, {0, 0, 6, 1, 0, 0, 0, 0, 1, NONE, READS(31)}, START_A},
    {"a fourth access: the last write of cell 0", CALL_RUN, fourth_after_write_of_0, "111111",
     START_A, {0, 0, 5, 1, 0, 0, 0, 1, 0, NONE, WRITE(0)}, START_A},
    {"a fourth access: the reads of cell 0", CALL_RUN, fourth_after_read_of_0, "1111111",
     START_A, {0, 0, 6, 1, 0, 0, 0, 0, 1, NONE, READS(0)}, START_A},
    {"worker 7: both differ, so the last write", CALL_RUN, last_worker, "777", START_A,
     {0, 0, 2, 1, 0, 0, 0, 1, 0, NONE_OF_7, WRITE(31)}, START_A},
    {"worker 7: the reads differ", CALL_RUN, last_worker, "777000077", START_A,
     {0, 0, 7, 2, 1, 0, 0, 1, 1, NONE_OF_7, READS(31)}, START_A},
    {"worker 7: past the last task", CALL_RUN, last_worker, "777000077007777", START_A,
     {0, 0, 12, 3, 3, 0, 1, 1, 1, NONE_OF_7, PAST}, START_A},
    {"eight workers, each with its own", CALL_RUN, eight_workers,
     "111" "22222" "33333" "4444444" "5555555" "666666666" "777777777"
     "00000000000000000000000000000000", START_A,
     {0, 0, 69, 8, 2, 0, 1, 4, 3, PAST, WRITE(10), READS(1), WRITE(20), READS(11), WRITE(31),
      READS(30), WRITE(0)}, START_A},
    {"cells 30 and 31 of 32", CALL_CHECK, cells_30_and_31, "", {0}, {0, 0, 1, 1, 32, 7, 1}, {0}},
    {"cell 31 named under modes 1 and 2", CALL_CHECK, cell_31_twice, "", {0}, {9, 1}, {0}},
    {"cell 31 of mode 2 read at once", CALL_CHECK, cell_31_read_at_once, "", {0}, {11, 1}, {0}},
    {"cell 31 of mode 2 read once written", CALL_CHECK, cell_31_read_once_written, "", {0},
     {0, 0, 1, 1, 32, 6, 1}, {0}},
    {"cell 31 of mode 1 written", CALL_CHECK, cell_31_written, "", {0}, {11, 1}, {0}},
    {"task 1's write left out", CALL_CHECK, unwritten, "", START_A, {17, 1}, START_A},
    {"task 1's write left out, read", CALL_READ, unwritten, "", START_A, {17, 1}, START_A},
    {"task 1's write left out, written", CALL_WRITE, unwritten, "", START_A, {17, 1}, START_A},
    {"task 1's write left out, plain run", CALL_PLAIN, unwritten, "", START_A, {17, 1}, START_A},
    {"task 1's write left out, run", CALL_RUN, unwritten, "0000001111111110000000", START_A,
     {17, 1}, START_A},
    {"17 at task 1 beside 6 at task 2", CALL_CHECK, unwritten_beside_6, "", START_A, {17, 1},
     START_A},
    {"17 at task 1 beside 6 at task 2, read", CALL_READ, unwritten_beside_6, "", START_A, {17, 1},
     START_A},
    {"17 at task 1 beside 6 at task 2, written", CALL_WRITE, unwritten_beside_6, "", START_A,
     {17, 1}, START_A},
    {"17 at task 1 beside 6 at task 2, plain run", CALL_PLAIN, unwritten_beside_6, "", START_A,
     {17, 1}, START_A},
    {"17 at task 1 beside 6 at task 2, run", CALL_RUN, unwritten_beside_6, "11", START_A,
     {17, 1}, START_A},
    {"17 at task 1 beside 11 at task 2", CALL_CHECK, unwritten_beside_11, "", START_A, {17, 1},
     START_A},
    {"11 and 17 on task 2", CALL_CHECK, another_cell_written, "", START_A, {11, 2}, START_A},
    {"11 and 17 on task 2, read", CALL_READ, another_cell_written, "", START_A, {11, 2}, START_A},
    {"11 and 17 on task 2, written", CALL_WRITE, another_cell_written, "", START_A, {11, 2},
     START_A},
    {"11 and 17 on task 2, plain run", CALL_PLAIN, another_cell_written, "", START_A, {11, 2},
     START_A},
    {"11 and 17 on task 2, run", CALL_RUN, another_cell_written, "11", START_A, {11, 2}, START_A},
    {"10 and 17 on task 1, an operation past the count", CALL_CHECK, past_the_count, "", START_A,
     {10, 1}, START_A},
    {"17 beside 16, read", CALL_READ, unwritten_a_byte_short, "", START_A, {17, 1}, START_A},
    {"17 beside 16, written", CALL_WRITE, unwritten_a_byte_short, "", START_A, {17, 1}, START_A},
    {"17 beside 12, plain run", CALL_PLAIN, unwritten_with_four_cells, "", START_A, {17, 1},
     START_A},
    {"17 beside 12, run", CALL_RUN, unwritten_with_four_cells, "11", START_A, {17, 1}, START_A},
    {"17 beside 14, run", CALL_RUN, unwritten, "02", START_A, {17, 1}, START_A},
    {"cell 0 of mode 2 and no operation", CALL_CHECK, no_write_of_cell_0, "", {0}, {17, 1}, {0}},
    {"cell 0 of mode 2, and b is 0", CALL_CHECK, b_is_no_write, "", {0}, {17, 1}, {0}},
    {"the second access of mode 2 not written", CALL_CHECK, second_access_unwritten, "", {0},
     {17, 1}, {0}},
    {"the fourth access of mode 2 not written", CALL_CHECK, fourth_access_unwritten, "", {0},
     {17, 1}, {0}},
    {"mode 2 read and not written", CALL_CHECK, read_and_unwritten, "", {0}, {11, 1}, {0}},
    {"mode 2 written by the first of two operations", CALL_CHECK, written_by_the_first, "", {0},
     {0, 0, 1, 1, 32, 10, 1}, {0}},
    {"mode 2 written by the last of six operations", CALL_CHECK, written_by_the_sixth, "", {0},
     {0, 0, 1, 1, 32, 14, 1}, {0}},
    {"mode 2 written by the last of three operations", CALL_PLAIN, written_by_the_third, "",
     {5, 6}, {0, 0}, {14, 14}},
    {"mode 2 written by the last of three operations, run", CALL_RUN, written_by_the_third,
     "00000000000", {5, 6}, {0, 0, 11, 0, 1, 1}, {14, 14}},
    {"mode 2 written by the task before", CALL_CHECK, written_by_the_task_before, "", {0},
     {17, 2}, {0}},
    {"mode 2 written by the task after", CALL_WRITE, written_by_the_task_after, "", {0},
     {17, 1}, {0}},
    {"mode 2 not written in the last of 200 tasks", CALL_CHECK, last_task_unwritten, "", {0},
     {17, 200}, {0}},
    {"mode 3 not written", CALL_CHECK, mode_3_unwritten, "", {0}, {0, 0, 1, 1, 1, 4, 1}, {0}},
    {"mode 3 not written, read", CALL_READ, mode_3_unwritten, "", {0}, {0, 0, 48, 1, 1, 1, 1},
     {0}},
    {"mode 3 not written, written", CALL_WRITE, mode_3_unwritten, "", {0}, {0, 0, 512}, {0}},
    {"mode 3 not written, plain run", CALL_PLAIN, mode_3_unwritten, "", {7}, {0, 0}, {7}},
    {"mode 3 not written, run", CALL_RUN, mode_3_unwritten, "0000", {7}, {0, 0, 4, 0, 1, 1}, {7}},
    {"mode 3 only read", CALL_CHECK, mode_3_only_read, "", {0}, {0, 0, 1, 1, 32, 9, 1}, {0}},
    {"200 tasks, 8 workers, 32 cells", CALL_CHECK, put_largest, "", {0},
     {0, 0, 200, 8, 32, 5800, 1}, {0}},
    {"200 tasks, read", CALL_READ, put_largest, "", {0}, {0, 0, 9600, 200, 8, 32, 1}, {0}},
    {"200 tasks, written", CALL_WRITE, put_largest, "", {0}, {0, 0, 10240}, {0}},
    {"201 tasks in 20 blocks", CALL_CHECK, tasks_201, "", {0}, {4, 0}, {0}},
    {"201 rows", CALL_WRITE, rows_201, "", {0}, {15, 0}, {0}},
    {"9 workers", CALL_CHECK, workers_9, "", {0}, {4, 0}, {0}},
    {"9 workers, writer", CALL_WRITE, workers_9, "", {0}, {4, 0}, {0}},
    {"33 cells", CALL_CHECK, cells_33, "", {0}, {4, 0}, {0}},
    {"33 cells, writer", CALL_WRITE, cells_33, "", {0}, {4, 0}, {0}},
    {"no bytes", CALL_CHECK, no_bytes, "", {0}, {1, 0}, {0}},
    {"10,240 bytes pass the length check", CALL_CHECK, zeros_10240, "", {0}, {3, 0}, {0}},
    {"10,752 bytes", CALL_CHECK, zeros_10752, "", {0}, {1, 0}, {0}},
    {"4 cells for 3", CALL_PLAIN, four_cells, "", START_A, {12, 0}, START_A},
    {"9 workers, run", CALL_RUN, workers_9, "11", {0}, {4, 0}, {0}},
    {"4 cells for 3, run", CALL_RUN, four_cells, "11", START_A, {12, 0}, START_A},
    {"schedule 0 2", CALL_RUN, flow_a, "02", START_A, {14, 1}, START_A},
    {"schedule 1 1 2", CALL_RUN, flow_a, "112", START_A, {14, 2}, START_A},
    {"schedule of 65,536 bytes", CALL_RUN, schedule_65536, NULL, START_A,
     {0, 0, 22, 65514, 3, 1, 65506, 8, 0, PAST, PAST}, {4660, 13330, 13335}},
    {"schedule of 65,537 bytes", CALL_RUN, schedule_65537, NULL, START_A, {13, 0}, START_A},
    {"rows lent a byte short", CALL_READ, short_output, "", START_A, {16, 0}, START_A},
    {"output a byte short", CALL_WRITE, short_output, "", START_A, {16, 0}, START_A},

    /* 02, Q-8: the swap in both versions */
    {"operation 5 of version 1, run", CALL_RUN, operation_5, "0000000", {4294967295, 74565},
     {0, 0, 7, 0, 1, 1}, {17699, 74565}},
    {"operation 5 of version 2", CALL_PLAIN, operation_5_of_2, "", {4294967295, 74565}, {0, 0},
     {83235, 74565}},
    {"operation 5 of version 2, run", CALL_RUN, operation_5_of_2, "0000000", {4294967295, 74565},
     {0, 0, 7, 0, 1, 1}, {83235, 74565}},
    {"operation 5 of version 2, a step before it", CALL_RUN, operation_5_of_2, "000",
     {4294967295, 74565}, {0, 0, 3, 0, 0, 0}, {4294967295, 74565}},
    {"operation 5 of version 1, b's high half all ones", CALL_PLAIN, operation_5, "",
     {0, 4294910789}, {0, 0}, {17699, 4294910789}},
    {"operation 5 of version 2, b's high half all ones", CALL_PLAIN, operation_5_of_2, "",
     {0, 4294910789}, {0, 0}, {4294919459, 4294910789}},
    {"operation 5 of version 2, b's high half all ones, run", CALL_RUN, operation_5_of_2,
     "0000000", {0, 4294910789}, {0, 0, 7, 0, 1, 1}, {4294919459, 4294910789}},
    {"operation 5 of version 1, b's low half 0", CALL_PLAIN, operation_5, "",
     {7, 4294901760}, {0, 0}, {0, 4294901760}},
    {"operation 5 of version 2, b's low half 0", CALL_PLAIN, operation_5_of_2, "",
     {7, 4294901760}, {0, 0}, {4294901760, 4294901760}},
    {"operation 5 of version 2, b's high half 0", CALL_PLAIN, operation_5_of_2, "",
     {4294967295, 9029}, {0, 0}, {17699, 9029}},
    {"operation 5 of version 1, in place", CALL_PLAIN, in_place_of_1, "", {74565}, {0, 0},
     {17699}},
    {"operation 5 of version 1, in place, run", CALL_RUN, in_place_of_1, "00000", {74565},
     {0, 0, 5, 0, 1, 1}, {17699}},
    {"operation 5 of version 2, in place", CALL_PLAIN, in_place_of_2, "", {74565}, {0, 0},
     {83235}},
    {"operation 5 of version 2, in place, run", CALL_RUN, in_place_of_2, "00000", {74565},
     {0, 0, 5, 0, 1, 1}, {83235}},
    {"operation 5 of version 1, in place, high half all ones", CALL_PLAIN, in_place_of_1, "",
     {4294910789}, {0, 0}, {17699}},
    {"operation 5 of version 2, in place, high half all ones", CALL_PLAIN, in_place_of_2, "",
     {4294910789}, {0, 0}, {4294919459}},
    {"operation 5 of version 2 into mode 2", CALL_CHECK, swap_into_mode_2, "", {0},
     {0, 0, 1, 1, 2, 7, 2}, {0}},
    {"operation 5 of version 2 into mode 2, plain run", CALL_PLAIN, swap_into_mode_2, "",
     {4294967295, 74565}, {0, 0}, {83235, 74565}},
    {"two fields, total 46", CALL_CHECK, two_fields_of_2, "", {0}, {0, 0, 4, 3, 4, 46, 2}, {0}},
    {"two fields", CALL_PLAIN, two_fields_of_2, "", {0}, {0, 0}, {74565, 1, 83235, 83235}},
    {"two fields, version 1", CALL_PLAIN, two_fields_of_1, "", {0}, {0, 0},
     {74565, 1, 17699, 17699}},
    {"two fields, before the swap", CALL_RUN, two_fields_of_2, "0000000000000" "111111111111",
     {0}, {0, 0, 25, 0, 2, 0}, {74565, 1, 4294967295, 0}},
    {"two fields, run", CALL_RUN, two_fields_of_2,
     "0000000000000" "111111111111" "222222222" "000000000" "11" "2", {0}, {0, 0, 46, 0, 4, 1},
     {74565, 1, 83235, 83235}},
    {"two fields, version 1, run", CALL_RUN, two_fields_of_1,
     "0000000000000" "111111111111" "222222222" "000000000" "11" "2", {0}, {0, 0, 46, 0, 4, 1},
     {74565, 1, 17699, 17699}},

    /* the version of a file */
    {"flow A of version 2", CALL_CHECK, flow_a_of_2, "", START_A, {0, 0, 3, 2, 3, 22, 2}, START_A},
    {"flow A of version 2, read", CALL_READ, flow_a_of_2, "", START_A, {0, 0, 144, 3, 2, 3, 2},
     START_A},
    {"flow A of version 2, written", CALL_WRITE, flow_a_of_2, "", START_A, {0, 0, 512}, START_A},
    {"P1 of version 2", CALL_PLAIN, flow_a_of_2, "", START_A, {0, 0}, {4660, 13330, 13335}},
    {"P7 of version 2", CALL_RUN, flow_a_of_2, "0000001111111110000000", START_A,
     {0, 0, 22, 0, 3, 1, 0, 0, 0, NONE, NONE}, {4660, 13330, 13335}},
    {"30 tasks of version 2", CALL_CHECK, three_of_2, "", {0}, {0, 0, 30, 8, 32, 870, 2}, {0}},
    {"200 tasks of version 2", CALL_CHECK, largest_of_2, "", {0}, {0, 0, 200, 8, 32, 5800, 2},
     {0}},
    {"200 tasks of version 2, read", CALL_READ, largest_of_2, "", {0},
     {0, 0, 9600, 200, 8, 32, 2}, {0}},
    {"200 tasks of version 2, written", CALL_WRITE, largest_of_2, "", {0}, {0, 0, 10240}, {0}},
    {"version byte 0", CALL_CHECK, version_byte_0, "", START_A, {3, 0}, START_A},
    {"version byte 2", CALL_CHECK, version_byte_2, "", START_A, {0, 0, 3, 2, 3, 22, 2}, START_A},
    {"version byte 3", CALL_CHECK, version_byte_3, "", START_A, {3, 0}, START_A},
    {"version byte 3, read", CALL_READ, version_byte_3, "", START_A, {3, 0}, START_A},
    {"version byte 3, plain run", CALL_PLAIN, version_byte_3, "", START_A, {3, 0}, START_A},
    {"version byte 3, run", CALL_RUN, version_byte_3, "000", START_A, {3, 0}, START_A},
    {"version byte 255", CALL_CHECK, version_byte_255, "", START_A, {3, 0}, START_A},
    {"version byte 3 and another check", CALL_CHECK, version_byte_3_unchecked, "", START_A,
     {2, 0}, START_A},
    {"block 1 of version 2 after version 1", CALL_CHECK, block_1_of_2, "", {0}, {3, 1}, {0}},
    {"block 1 of version 2 after version 1, read", CALL_READ, block_1_of_2, "", {0}, {3, 1}, {0}},
    {"block 1 of version 2 after version 1, plain run", CALL_PLAIN, block_1_of_2, "", {0},
     {3, 1}, {0}},
    {"block 1 of version 2 after version 1, run", CALL_RUN, block_1_of_2, "01", {0}, {3, 1}, {0}},
    {"block 1 of version 1 after version 2", CALL_CHECK, block_1_of_1, "", {0}, {3, 1}, {0}},
    {"block 1 of version 1 after version 2, read", CALL_READ, block_1_of_1, "", {0}, {3, 1}, {0}},
    {"block 1 of version 1 after version 2, plain run", CALL_PLAIN, block_1_of_1, "", {0},
     {3, 1}, {0}},
    {"block 1 of version 1 after version 2, run", CALL_RUN, block_1_of_1, "01", {0}, {3, 1}, {0}},
    {"block 0 alone of version 2", CALL_CHECK, block_0_of_2, "", {0}, {3, 1}, {0}},
    {"block 0 alone of version 1", CALL_CHECK, block_0_of_1, "", {0}, {3, 1}, {0}},
    {"the last of three blocks of version 2", CALL_CHECK, block_2_of_2, "", {0}, {3, 2}, {0}},
    {"the last of 20 blocks of version 2", CALL_CHECK, last_of_2, "", {0}, {3, 19}, {0}},
    {"the last of 20 blocks of version 1", CALL_READ, last_of_1, "", {0}, {3, 19}, {0}},
    {"block 1 of version 3", CALL_CHECK, block_1_of_3, "", {0}, {3, 1}, {0}},
    {"another version beside 2 in block 1", CALL_CHECK, mixed_beside_2, "", {0}, {2, 1}, {0}},
    {"another version beside 4 in block 1", CALL_CHECK, mixed_beside_4, "", {0}, {3, 1}, {0}},
    {"another version after 4 in block 0", CALL_CHECK, mixed_after_4, "", {0}, {4, 0}, {0}},
    {"another version before 6 at task 1", CALL_CHECK, mixed_before_6, "", {0}, {3, 1}, {0}},

    /* the version that the writer is told */
    {"writer told version 0", CALL_WRITE, told_0, "", START_A, {22, 0}, START_A},
    {"writer told version 3", CALL_WRITE, told_3, "", START_A, {22, 0}, START_A},
    {"writer told version 257", CALL_WRITE, told_257, "", START_A, {22, 0}, START_A},
    {"writer told version 65,538", CALL_WRITE, told_65538, "", START_A, {22, 0}, START_A},
    {"writer told version 16,777,217", CALL_WRITE, told_16777217, "", START_A, {22, 0}, START_A},
    {"writer told version 4,294,967,295", CALL_WRITE, told_4294967295, "", START_A, {22, 0},
     START_A},
    {"22 beside 15", CALL_WRITE, told_3_beside_15, "", {0}, {15, 0}, {0}},
    {"22 beside 4", CALL_WRITE, told_3_beside_4, "", {0}, {22, 0}, {0}},
    {"22 beside 6", CALL_WRITE, told_3_beside_6, "", START_A, {22, 0}, START_A},
    {"22 beside 17", CALL_WRITE, told_3_beside_17, "", START_A, {22, 0}, START_A},
    {"22 beside 16", CALL_WRITE, told_3_beside_16, "", START_A, {22, 0}, START_A},
};

enum { OTHER_CASES = sizeof other_cases / sizeof other_cases[0] };

uint32_t named_case_count(void)
{
    return OTHER_CASES + larger_case_count;
}

const struct named_case *named_case(uint32_t index)
{
    return index < OTHER_CASES ? &other_cases[index] : &larger_cases[index - OTHER_CASES];
}

void make_named_case(const struct named_case *from, struct test_case *made)
{
    made->call = from->call;
    made->kind = from->name;
    made->known = true;
    made->number = from->answer[0];
    made->place = from->answer[1];
    made->output_len = 0;
    made->schedule_len = 0;
    made->stretches.kind = NO_STRETCHES;
    memset(made->output, 0, ROOM_OUTPUT);
    memcpy(made->output, from->start, sizeof from->start);
    from->make(made);
    if (from->schedule == NULL)
        return;
    made->schedule_len = strlen(from->schedule);
    for (size_t i = 0; i < made->schedule_len; i++)
        made->schedule[i] = (uint8_t)(from->schedule[i] - '0');
}
