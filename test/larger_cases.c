#include "larger_cases.h"

#include <string.h>

/* ---- one task ---------------------------------------------------------- */

/* NAME_of_1 and NAME_of_2: a flow in each version. */
#define IN_BOTH_VERSIONS(name) \
    static void name##_of_1(struct test_case *made) \
    { \
        name(made, 1); \
    } \
    static void name##_of_2(struct test_case *made) \
    { \
        name(made, 2); \
    }

static void operation_6(struct test_case *made, uint32_t version)
{
    one_operation(made, version, 6);
}
IN_BOTH_VERSIONS(operation_6)

/* One task of one worker with three cells, its row given. */
static void one_task(struct test_case *made, uint32_t version, const uint8_t *row, size_t length)
{
    struct sample flow = {version, 1, 1, 3, {0}};
    memcpy(flow.rows, row, length);
    put_flow(made, &flow);
}

/* A row that may read and write cell 0 and read cell 1, up to its operations. */
#define CELLS_0_AND_1(operations) 0, 2, operations, 0, 0, 3, 1, 1, 0, 0, 0, 0

/* Operations on cell 0, by cell 1 or by the constant 7. */
#define SET_7 1, 0, 0, 0, 7, 0
#define BY_1(code) code, 0, 1, 0, 0, 0

/* Operation 6 alone of its kind: cell 0 by itself; the first of two; the second
   of two, into a cell of mode 3 and of mode 2; the third of six; the sixth. */
static void larger_in_place(struct test_case *made, uint32_t version)
{
    static const uint8_t row[] = {0, 1, 1, 0, 0, 3, 0, 0, 0, 0, 0, 0, 6};
    one_task(made, version, row, sizeof row);
}
IN_BOTH_VERSIONS(larger_in_place)

static void larger_first(struct test_case *made, uint32_t version)
{
    static const uint8_t row[] = {CELLS_0_AND_1(2), BY_1(6), BY_1(3)};
    one_task(made, version, row, sizeof row);
}
IN_BOTH_VERSIONS(larger_first)

static void larger_second(struct test_case *made, uint32_t version)
{
    static const uint8_t row[] = {CELLS_0_AND_1(2), SET_7, BY_1(6)};
    one_task(made, version, row, sizeof row);
}
IN_BOTH_VERSIONS(larger_second)

static void larger_in_mode_2(struct test_case *made, uint32_t version)
{
    static const uint8_t row[] = {0, 2, 2, 0, 0, 2, 1, 1, 0, 0, 0, 0, SET_7, BY_1(6)};
    one_task(made, version, row, sizeof row);
}
IN_BOTH_VERSIONS(larger_in_mode_2)

static void larger_third(struct test_case *made, uint32_t version)
{
    static const uint8_t row[] = {CELLS_0_AND_1(6), SET_7, BY_1(3), BY_1(6), BY_1(4), BY_1(4),
                                  BY_1(3)};
    one_task(made, version, row, sizeof row);
}
IN_BOTH_VERSIONS(larger_third)

static void larger_sixth(struct test_case *made, uint32_t version)
{
    static const uint8_t row[] = {CELLS_0_AND_1(6), BY_1(2), BY_1(3), BY_1(4), BY_1(5), SET_7,
                                  BY_1(6)};
    one_task(made, version, row, sizeof row);
}
IN_BOTH_VERSIONS(larger_sixth)

/* Operation 6, and on the same task: an owner that is no worker; byte 3; a cell
   in an unused access; a cell named twice. */
static void larger_and_6(struct test_case *made, uint32_t version)
{
    static const uint8_t row[] = {1, 2, 1, 0, 0, 3, 1, 1, 0, 0, 0, 0, BY_1(6)};
    one_task(made, version, row, sizeof row);
}
IN_BOTH_VERSIONS(larger_and_6)

static void larger_and_7(struct test_case *made, uint32_t version)
{
    static const uint8_t row[] = {0, 2, 1, 1, 0, 3, 1, 1, 0, 0, 0, 0, BY_1(6)};
    one_task(made, version, row, sizeof row);
}
IN_BOTH_VERSIONS(larger_and_7)

static void larger_and_8(struct test_case *made, uint32_t version)
{
    static const uint8_t row[] = {0, 2, 1, 0, 0, 3, 1, 1, 2, 0, 0, 0, BY_1(6)};
    one_task(made, version, row, sizeof row);
}
IN_BOTH_VERSIONS(larger_and_8)

static void larger_and_9(struct test_case *made, uint32_t version)
{
    static const uint8_t row[] = {0, 2, 1, 0, 0, 3, 0, 1, 0, 0, 0, 0, 6};
    one_task(made, version, row, sizeof row);
}
IN_BOTH_VERSIONS(larger_and_9)

/* Code 7 before operation 6 and after it; cell 3 of three in the first of six
   operations, with operation 6 in the sixth, and the other way round. */
static void code_7_before(struct test_case *made, uint32_t version)
{
    static const uint8_t row[] = {CELLS_0_AND_1(2), BY_1(7), BY_1(6)};
    one_task(made, version, row, sizeof row);
}
IN_BOTH_VERSIONS(code_7_before)

static void code_7_after(struct test_case *made, uint32_t version)
{
    static const uint8_t row[] = {CELLS_0_AND_1(2), BY_1(6), BY_1(7)};
    one_task(made, version, row, sizeof row);
}
IN_BOTH_VERSIONS(code_7_after)

static void cell_3_first(struct test_case *made, uint32_t version)
{
    static const uint8_t row[] = {CELLS_0_AND_1(6), 2, 0, 3, 0, 0, 0, BY_1(2), BY_1(2), BY_1(2),
                                  BY_1(2), BY_1(6)};
    one_task(made, version, row, sizeof row);
}
IN_BOTH_VERSIONS(cell_3_first)

static void cell_3_sixth(struct test_case *made, uint32_t version)
{
    static const uint8_t row[] = {CELLS_0_AND_1(6), BY_1(6), BY_1(2), BY_1(2), BY_1(2), BY_1(2),
                                  2, 0, 3};
    one_task(made, version, row, sizeof row);
}
IN_BOTH_VERSIONS(cell_3_sixth)

/* Operation 6 is itself at fault, with cell 3 of three or with a constant; past
   the count there is a copy, or operation 6 itself. */
static void larger_of_cell_3(struct test_case *made, uint32_t version)
{
    static const uint8_t row[] = {CELLS_0_AND_1(1), 6, 0, 3};
    one_task(made, version, row, sizeof row);
}
IN_BOTH_VERSIONS(larger_of_cell_3)

static void larger_with_constant(struct test_case *made, uint32_t version)
{
    static const uint8_t row[] = {CELLS_0_AND_1(1), 6, 0, 1, 0, 0, 1};
    one_task(made, version, row, sizeof row);
}
IN_BOTH_VERSIONS(larger_with_constant)

static void copy_past_the_count(struct test_case *made, uint32_t version)
{
    static const uint8_t row[] = {CELLS_0_AND_1(1), BY_1(6), BY_1(2)};
    one_task(made, version, row, sizeof row);
}
IN_BOTH_VERSIONS(copy_past_the_count)

static void larger_past_the_count(struct test_case *made, uint32_t version)
{
    static const uint8_t row[] = {CELLS_0_AND_1(1), BY_1(2), BY_1(6)};
    one_task(made, version, row, sizeof row);
}
IN_BOTH_VERSIONS(larger_past_the_count)

/* Operation 6 writes cell 1, which may only be read; it reads cell 0 of mode 2,
   which is not written yet; a constant is put into cell 1 before operation 6, or
   after it. */
static void larger_against(struct test_case *made, uint32_t version)
{
    static const uint8_t row[] = {CELLS_0_AND_1(1), 6, 1, 0};
    one_task(made, version, row, sizeof row);
}
IN_BOTH_VERSIONS(larger_against)

static void larger_at_once(struct test_case *made, uint32_t version)
{
    static const uint8_t row[] = {0, 2, 1, 0, 0, 2, 1, 1, 0, 0, 0, 0, BY_1(6)};
    one_task(made, version, row, sizeof row);
}
IN_BOTH_VERSIONS(larger_at_once)

static void against_before(struct test_case *made, uint32_t version)
{
    static const uint8_t row[] = {CELLS_0_AND_1(2), 1, 1, 0, 0, 7, 0, BY_1(6)};
    one_task(made, version, row, sizeof row);
}
IN_BOTH_VERSIONS(against_before)

static void against_after(struct test_case *made, uint32_t version)
{
    static const uint8_t row[] = {CELLS_0_AND_1(2), BY_1(6), 1, 1, 0, 0, 7};
    one_task(made, version, row, sizeof row);
}
IN_BOTH_VERSIONS(against_after)

/* Cell 2 is write only and not written, beside operation 6; and operation 6 is
   against the modes besides. */
static void larger_and_17(struct test_case *made, uint32_t version)
{
    static const uint8_t row[] = {0, 3, 1, 0, 0, 3, 1, 1, 2, 2, 0, 0, BY_1(6)};
    one_task(made, version, row, sizeof row);
}
IN_BOTH_VERSIONS(larger_and_17)

static void larger_and_11_and_17(struct test_case *made, uint32_t version)
{
    static const uint8_t row[] = {0, 3, 1, 0, 0, 3, 1, 1, 2, 2, 0, 0, 6, 1, 0};
    one_task(made, version, row, sizeof row);
}
IN_BOTH_VERSIONS(larger_and_11_and_17)

/* ---- one of several tasks ---------------------------------------------- */

/* Flow A whose task 1 has a second operation: cell 0 becomes the larger of itself
   and itself. */
static void make_task_1_larger(struct sample *flow, uint32_t version)
{
    make_flow_a(flow);
    flow->version = version;
    flow->rows[2] = 2;
    flow->rows[18] = 6;
}

/* And task 2 has an owner that is no worker; an unknown code; writes cell 0, which
   it may only read; has no operation, and so does not write cell 1. */
static void larger_before_6(struct test_case *made, uint32_t version)
{
    struct sample flow;
    make_task_1_larger(&flow, version);
    flow.rows[ROW_BYTES] = 2;
    put_flow(made, &flow);
}
IN_BOTH_VERSIONS(larger_before_6)

static void larger_before_10(struct test_case *made, uint32_t version)
{
    struct sample flow;
    make_task_1_larger(&flow, version);
    flow.rows[ROW_BYTES + 12] = 7;
    put_flow(made, &flow);
}
IN_BOTH_VERSIONS(larger_before_10)

static void larger_before_11(struct test_case *made, uint32_t version)
{
    struct sample flow;
    make_task_1_larger(&flow, version);
    flow.rows[ROW_BYTES + 13] = 0;
    put_flow(made, &flow);
}
IN_BOTH_VERSIONS(larger_before_11)

static void larger_before_17(struct test_case *made, uint32_t version)
{
    struct sample flow;
    make_task_1_larger(&flow, version);
    flow.rows[ROW_BYTES + 2] = 0;
    memset(flow.rows + ROW_BYTES + 12, 0, 6);
    put_flow(made, &flow);
}
IN_BOTH_VERSIONS(larger_before_17)

/* Flow A with operation 6 in tasks 2 and 3. Task 2 has it as a second operation:
   cell 1, which is cell 0 swapped, becomes the larger of itself and cell 0. In task
   3 cell 2 becomes the larger of itself and cell 1. */
static void make_larger_flow(struct sample *flow, uint32_t version)
{
    make_flow_a(flow);
    flow->version = version;
    flow->rows[ROW_BYTES + 2] = 2;
    flow->rows[ROW_BYTES + 18] = 6;
    flow->rows[ROW_BYTES + 19] = 1;
    flow->rows[2 * ROW_BYTES + 12] = 6;
}

static void larger_flow(struct test_case *made, uint32_t version)
{
    struct sample flow;
    make_larger_flow(&flow, version);
    put_flow(made, &flow);
}
IN_BOTH_VERSIONS(larger_flow)

/* And task 1 has an owner that is no worker; writes cell 1, which it does not
   name; has no operation. */
static void larger_after_6(struct test_case *made, uint32_t version)
{
    struct sample flow;
    make_larger_flow(&flow, version);
    flow.rows[0] = 2;
    put_flow(made, &flow);
}
IN_BOTH_VERSIONS(larger_after_6)

static void larger_after_11(struct test_case *made, uint32_t version)
{
    struct sample flow;
    make_larger_flow(&flow, version);
    flow.rows[13] = 1;
    put_flow(made, &flow);
}
IN_BOTH_VERSIONS(larger_after_11)

static void larger_after_17(struct test_case *made, uint32_t version)
{
    struct sample flow;
    make_larger_flow(&flow, version);
    flow.rows[2] = 0;
    memset(flow.rows + 12, 0, 6);
    put_flow(made, &flow);
}
IN_BOTH_VERSIONS(larger_after_17)

/* 200 tasks that set cell 0; in one of them it becomes the larger of itself and
   itself after that. */
static void one_of_200(struct test_case *made, uint32_t version, uint32_t task)
{
    static const uint8_t row[] = {0, 1, 1, 0, 0, 2, 0, 0, 0, 0, 0, 0, SET_7};
    struct sample flow = {version, MOST_TASKS, 1, 1, {0}};
    for (uint32_t i = 0; i < MOST_TASKS; i++)
        memcpy(flow.rows + i * ROW_BYTES, row, sizeof row);
    flow.rows[(task - 1) * ROW_BYTES + 2] = 2;
    flow.rows[(task - 1) * ROW_BYTES + 18] = 6;
    put_flow(made, &flow);
}

static void larger_at_1(struct test_case *made)
{
    one_of_200(made, 2, 1);
}

static void larger_at_11(struct test_case *made, uint32_t version)
{
    one_of_200(made, version, 11);
}
IN_BOTH_VERSIONS(larger_at_11)

static void larger_at_200(struct test_case *made, uint32_t version)
{
    one_of_200(made, version, 200);
}
IN_BOTH_VERSIONS(larger_at_200)

/* ---- beside faults of a file or of a call ------------------------------ */

/* A byte less than the file has. */
static void larger_a_byte_short(struct test_case *made)
{
    operation_6_of_2(made);
    made->input_len--;
}

/* Operation 6 at task 1, and a fault of the last block: its check; its bytes
   14-15; its version; its workers; a byte after its rows. */
static void larger_before_check(struct test_case *made)
{
    larger_at_1(made);
    made->input[made->input_len - 1] ^= 1;
}

static void put_in_last_block(struct test_case *made, uint32_t at, uint8_t byte)
{
    uint8_t *block = made->input + BLOCK_BYTES * (MOST_BLOCKS - 1);
    larger_at_1(made);
    block[at] = byte;
    put_check(block);
}

static void larger_before_head(struct test_case *made)
{
    put_in_last_block(made, 14, 1);
}

static void larger_before_version(struct test_case *made)
{
    put_in_last_block(made, 4, 1);
}

static void larger_before_sizes(struct test_case *made)
{
    put_in_last_block(made, 12, 2);
}

static void larger_before_rest(struct test_case *made)
{
    put_in_last_block(made, 509, 1);
}

/* Rows or blocks do not fit by a byte. */
static void larger_beside_16(struct test_case *made, uint32_t version)
{
    operation_6(made, version);
    made->output_len--;
}
IN_BOTH_VERSIONS(larger_beside_16)

/* The writer is given a byte too little; told another version; 9 workers; 33
   cells. */
static void larger_beside_15(struct test_case *made, uint32_t version)
{
    operation_6(made, version);
    made->input_len--;
}
IN_BOTH_VERSIONS(larger_beside_15)

static void larger_beside_22(struct test_case *made)
{
    operation_6_of_1(made);
    made->version = 3;
}

static void larger_beside_9_workers(struct test_case *made, uint32_t version)
{
    operation_6(made, version);
    made->workers = 9;
}
IN_BOTH_VERSIONS(larger_beside_9_workers)

static void larger_beside_33_cells(struct test_case *made, uint32_t version)
{
    operation_6(made, version);
    made->cells = 33;
}
IN_BOTH_VERSIONS(larger_beside_33_cells)

/* Four cells for two, and a schedule that is a byte too long. */
static void larger_with_four_cells(struct test_case *made, uint32_t version)
{
    operation_6(made, version);
    made->output_len = 16;
}
IN_BOTH_VERSIONS(larger_with_four_cells)

static void larger_too_long(struct test_case *made, uint32_t version)
{
    operation_6(made, version);
    made->schedule_len = 65537;
    memset(made->schedule, 0, made->schedule_len);
}
IN_BOTH_VERSIONS(larger_too_long)

/* ---- the table --------------------------------------------------------- */

#define START_A {0, 0, 5}
#define START_6 {3, 74565}

const struct named_case larger_cases[] = {
    /* in a file of version 1 as before */
    {"operation 6 of version 1", CALL_CHECK, operation_6_of_1, "", {0}, {0, 0, 1, 1, 2, 7, 1},
     {0}},
    {"operation 6 of version 1, read", CALL_READ, operation_6_of_1, "", {0},
     {0, 0, 48, 1, 1, 2, 1}, {0}},
    {"operation 6 of version 1, b larger", CALL_PLAIN, operation_6_of_1, "", START_6, {0, 0},
     {74565, 74565}},
    {"operation 6 of version 1, a larger", CALL_PLAIN, operation_6_of_1, "", {74565, 3}, {0, 0},
     {74565, 3}},
    {"operation 6 of version 1, both the same", CALL_PLAIN, operation_6_of_1, "", {7, 7}, {0, 0},
     {7, 7}},
    {"operation 6 of version 1, a's top bit set", CALL_PLAIN, operation_6_of_1, "",
     {2147483648, 2147483647}, {0, 0}, {2147483648, 2147483647}},
    {"operation 6 of version 1, b's top bit set", CALL_PLAIN, operation_6_of_1, "",
     {2147483647, 2147483648}, {0, 0}, {2147483648, 2147483648}},
    {"operation 6 of version 1, all bits of a set", CALL_PLAIN, operation_6_of_1, "",
     {4294967295, 0}, {0, 0}, {4294967295, 0}},
    {"operation 6 of version 1, all bits of b set", CALL_PLAIN, operation_6_of_1, "",
     {0, 4294967295}, {0, 0}, {4294967295, 4294967295}},
    {"operation 6 of version 1, b larger, run", CALL_RUN, operation_6_of_1, "0000000", START_6,
     {0, 0, 7, 0, 1, 1}, {74565, 74565}},
    {"operation 6 of version 1, a larger, run", CALL_RUN, operation_6_of_1, "0000000", {74565, 3},
     {0, 0, 7, 0, 1, 1}, {74565, 3}},
    {"operation 6 of version 1, a's top bit set, run", CALL_RUN, operation_6_of_1, "0000000",
     {2147483648, 2147483647}, {0, 0, 7, 0, 1, 1}, {2147483648, 2147483647}},
    {"operation 6 of version 1, b's top bit set, run", CALL_RUN, operation_6_of_1, "0000000",
     {2147483647, 2147483648}, {0, 0, 7, 0, 1, 1}, {2147483648, 2147483648}},
    {"operation 6 of version 1, a step before it", CALL_RUN, operation_6_of_1, "000", START_6,
     {0, 0, 3, 0, 0, 0}, START_6},
    {"operation 6 of version 1, the step itself", CALL_RUN, operation_6_of_1, "0000", START_6,
     {0, 0, 4, 0, 0, 0}, {74565, 74565}},
    {"operation 6 of version 1, in place", CALL_PLAIN, larger_in_place_of_1, "", {74565}, {0, 0},
     {74565}},
    {"operation 6 of version 1, first of two", CALL_PLAIN, larger_first_of_1, "", {3, 10}, {0, 0},
     {20, 10}},
    {"operation 6 of version 1, second of two", CALL_CHECK, larger_second_of_1, "", {0},
     {0, 0, 1, 1, 3, 8, 1}, {0}},
    {"operation 6 of version 1, second of two, plain run", CALL_PLAIN, larger_second_of_1, "",
     {100, 5}, {0, 0}, {7, 5}},
    {"operation 6 of version 1, second of two, run", CALL_RUN, larger_second_of_1, "00000000",
     {100, 9}, {0, 0, 8, 0, 1, 1}, {9, 9}},
    {"operation 6 of version 1, into mode 2", CALL_PLAIN, larger_in_mode_2_of_1, "", {100, 9},
     {0, 0}, {9, 9}},
    {"operation 6 of version 1, third of six", CALL_PLAIN, larger_third_of_1, "", {3, 4294967290},
     {0, 0}, {0, 4294967290}},
    {"operation 6 of version 1, sixth", CALL_CHECK, larger_sixth_of_1, "", {0},
     {0, 0, 1, 1, 3, 12, 1}, {0}},
    {"operation 6 of version 1, sixth, plain run", CALL_PLAIN, larger_sixth_of_1, "", START_6,
     {0, 0}, {74565, 74565}},
    {"operation 6 of version 1, sixth, run", CALL_RUN, larger_sixth_of_1, "000000000000", {3, 5},
     {0, 0, 12, 0, 1, 1}, {7, 5}},
    {"operation 6 in tasks 2 and 3", CALL_CHECK, larger_flow_of_1, "", {0}, {0, 0, 3, 2, 3, 23, 1},
     {0}},
    {"operation 6 in tasks 2 and 3, read", CALL_READ, larger_flow_of_1, "", {0},
     {0, 0, 144, 3, 2, 3, 1}, {0}},
    {"operation 6 in tasks 2 and 3, plain run", CALL_PLAIN, larger_flow_of_1, "", START_A, {0, 0},
     {4660, 13330, 13330}},
    {"operation 6 in tasks 2 and 3, the start larger", CALL_PLAIN, larger_flow_of_1, "",
     {0, 0, 20000}, {0, 0}, {4660, 13330, 20000}},
    {"operation 6 in tasks 2 and 3, run", CALL_RUN, larger_flow_of_1,
     "000000" "1111111111" "0000000", START_A, {0, 0, 23, 0, 3, 1}, {4660, 13330, 13330}},
    {"operation 6 in task 200", CALL_CHECK, larger_at_200_of_1, "", {0},
     {0, 0, 200, 1, 1, 1001, 1}, {0}},
    {"operation 6 in task 200, read", CALL_READ, larger_at_200_of_1, "", {0},
     {0, 0, 9600, 200, 1, 1, 1}, {0}},

    /* and refused in one of version 2 */
    {"operation 6 of version 2", CALL_CHECK, operation_6_of_2, "", {0}, {18, 1}, {0}},
    {"operation 6 of version 2, read", CALL_READ, operation_6_of_2, "", {0}, {18, 1}, {0}},
    {"operation 6 of version 2, plain run", CALL_PLAIN, operation_6_of_2, "", START_6, {18, 1},
     START_6},
    {"operation 6 of version 2, run", CALL_RUN, operation_6_of_2, "0000000", START_6, {18, 1},
     START_6},
    {"operation 6 of version 2, no step", CALL_RUN, operation_6_of_2, "", START_6, {18, 1},
     START_6},
    {"operation 6 of version 2, in place", CALL_CHECK, larger_in_place_of_2, "", {0}, {18, 1},
     {0}},
    {"operation 6 of version 2, first of two", CALL_CHECK, larger_first_of_2, "", {0}, {18, 1},
     {0}},
    {"operation 6 of version 2, second of two", CALL_CHECK, larger_second_of_2, "", {0}, {18, 1},
     {0}},
    {"operation 6 of version 2, second of two, read", CALL_READ, larger_second_of_2, "", {0},
     {18, 1}, {0}},
    {"operation 6 of version 2, second of two, plain run", CALL_PLAIN, larger_second_of_2, "",
     START_6, {18, 1}, START_6},
    {"operation 6 of version 2, second of two, run", CALL_RUN, larger_second_of_2, "0000000",
     START_6, {18, 1}, START_6},
    {"operation 6 of version 2, into mode 2", CALL_CHECK, larger_in_mode_2_of_2, "", {0}, {18, 1},
     {0}},
    {"operation 6 of version 2, third of six", CALL_CHECK, larger_third_of_2, "", {0}, {18, 1},
     {0}},
    {"operation 6 of version 2, sixth", CALL_CHECK, larger_sixth_of_2, "", {0}, {18, 1}, {0}},
    {"operation 6 of version 2, sixth, read", CALL_READ, larger_sixth_of_2, "", {0}, {18, 1}, {0}},
    {"operation 6 of version 2, sixth, plain run", CALL_PLAIN, larger_sixth_of_2, "", START_6,
     {18, 1}, START_6},
    {"operation 6 of version 2, sixth, run", CALL_RUN, larger_sixth_of_2, "0000000", START_6,
     {18, 1}, START_6},
    {"operation 6 in tasks 2 and 3 of version 2", CALL_CHECK, larger_flow_of_2, "", {0}, {18, 2},
     {0}},
    {"operation 6 in tasks 2 and 3 of version 2, read", CALL_READ, larger_flow_of_2, "", {0},
     {18, 2}, {0}},
    {"operation 6 in tasks 2 and 3 of version 2, plain run", CALL_PLAIN, larger_flow_of_2, "",
     START_A, {18, 2}, START_A},
    {"operation 6 in tasks 2 and 3 of version 2, run", CALL_RUN, larger_flow_of_2, "000", START_A,
     {18, 2}, START_A},
    {"operation 6 in task 1 of 200, version 2", CALL_CHECK, larger_at_1, "", {0}, {18, 1}, {0}},
    {"operation 6 in task 11, version 2", CALL_CHECK, larger_at_11_of_2, "", {0}, {18, 11}, {0}},
    {"operation 6 in task 200, version 2", CALL_CHECK, larger_at_200_of_2, "", {0}, {18, 200},
     {0}},
    {"operation 6 in task 200, version 2, read", CALL_READ, larger_at_200_of_2, "", {0}, {18, 200},
     {0}},
    {"operation 6 in task 200, version 2, plain run", CALL_PLAIN, larger_at_200_of_2, "", {5},
     {18, 200}, {5}},
    {"operation 6 in task 200, version 2, run", CALL_RUN, larger_at_200_of_2, "000", {5},
     {18, 200}, {5}},

    /* and by the writer in both */
    {"operation 6 of version 1, written", CALL_WRITE, operation_6_of_1, "", {0}, {18, 1}, {0}},
    {"operation 6 of version 2, written", CALL_WRITE, operation_6_of_2, "", {0}, {18, 1}, {0}},
    {"operation 6 of version 1, in place, written", CALL_WRITE, larger_in_place_of_1, "", {0},
     {18, 1}, {0}},
    {"operation 6 of version 1, first of two, written", CALL_WRITE, larger_first_of_1, "", {0},
     {18, 1}, {0}},
    {"operation 6 of version 2, first of two, written", CALL_WRITE, larger_first_of_2, "", {0},
     {18, 1}, {0}},
    {"operation 6 of version 1, second of two, written", CALL_WRITE, larger_second_of_1, "", {0},
     {18, 1}, {0}},
    {"operation 6 of version 2, second of two, written", CALL_WRITE, larger_second_of_2, "", {0},
     {18, 1}, {0}},
    {"operation 6 of version 2, into mode 2, written", CALL_WRITE, larger_in_mode_2_of_2, "", {0},
     {18, 1}, {0}},
    {"operation 6 of version 1, third of six, written", CALL_WRITE, larger_third_of_1, "", {0},
     {18, 1}, {0}},
    {"operation 6 of version 1, sixth, written", CALL_WRITE, larger_sixth_of_1, "", {0}, {18, 1},
     {0}},
    {"operation 6 of version 2, sixth, written", CALL_WRITE, larger_sixth_of_2, "", {0}, {18, 1},
     {0}},
    {"operation 6 in tasks 2 and 3 of version 1, written", CALL_WRITE, larger_flow_of_1, "", {0},
     {18, 2}, {0}},
    {"operation 6 in tasks 2 and 3 of version 2, written", CALL_WRITE, larger_flow_of_2, "", {0},
     {18, 2}, {0}},
    {"operation 6 in task 11, written", CALL_WRITE, larger_at_11_of_1, "", {0}, {18, 11}, {0}},
    {"operation 6 in task 200, version 1, written", CALL_WRITE, larger_at_200_of_1, "", {0},
     {18, 200}, {0}},
    {"operation 6 in task 200, version 2, written", CALL_WRITE, larger_at_200_of_2, "", {0},
     {18, 200}, {0}},

    /* 18 among the numbers of its task */
    {"6 and 18 on one task, version 2", CALL_CHECK, larger_and_6_of_2, "", {0}, {6, 1}, {0}},
    {"6 and 18 on one task, version 1, written", CALL_WRITE, larger_and_6_of_1, "", {0}, {6, 1},
     {0}},
    {"7 and 18 on one task, version 2", CALL_CHECK, larger_and_7_of_2, "", {0}, {7, 1}, {0}},
    {"7 and 18 on one task, version 1, written", CALL_WRITE, larger_and_7_of_1, "", {0}, {7, 1},
     {0}},
    {"8 and 18 on one task, version 2", CALL_CHECK, larger_and_8_of_2, "", {0}, {8, 1}, {0}},
    {"8 and 18 on one task, version 1, written", CALL_WRITE, larger_and_8_of_1, "", {0}, {8, 1},
     {0}},
    {"9 and 18 on one task, version 2", CALL_CHECK, larger_and_9_of_2, "", {0}, {9, 1}, {0}},
    {"9 and 18 on one task, version 1, written", CALL_WRITE, larger_and_9_of_1, "", {0}, {9, 1},
     {0}},
    {"10 and then 18 on one task, version 2", CALL_CHECK, code_7_before_of_2, "", {0}, {10, 1},
     {0}},
    {"10 and then 18 on one task, version 2, read", CALL_READ, code_7_before_of_2, "", {0},
     {10, 1}, {0}},
    {"10 and then 18 on one task, version 2, written", CALL_WRITE, code_7_before_of_2, "", {0},
     {10, 1}, {0}},
    {"10 and then 18 on one task, version 1, written", CALL_WRITE, code_7_before_of_1, "", {0},
     {10, 1}, {0}},
    {"18 and then 10 on one task, version 2", CALL_CHECK, code_7_after_of_2, "", {0}, {10, 1},
     {0}},
    {"18 and then 10 on one task, version 2, plain run", CALL_PLAIN, code_7_after_of_2, "",
     START_6, {10, 1}, START_6},
    {"18 and then 10 on one task, version 2, run", CALL_RUN, code_7_after_of_2, "0", START_6,
     {10, 1}, START_6},
    {"18 and then 10 on one task, version 2, written", CALL_WRITE, code_7_after_of_2, "", {0},
     {10, 1}, {0}},
    {"18 and then 10 on one task, version 1, written", CALL_WRITE, code_7_after_of_1, "", {0},
     {10, 1}, {0}},
    {"10 first and 18 sixth, version 2", CALL_CHECK, cell_3_first_of_2, "", {0}, {10, 1}, {0}},
    {"10 first and 18 sixth, version 1, written", CALL_WRITE, cell_3_first_of_1, "", {0}, {10, 1},
     {0}},
    {"18 first and 10 sixth, version 2", CALL_CHECK, cell_3_sixth_of_2, "", {0}, {10, 1}, {0}},
    {"18 first and 10 sixth, version 1, written", CALL_WRITE, cell_3_sixth_of_1, "", {0}, {10, 1},
     {0}},
    {"operation 6 with cell 3 of three, version 2", CALL_CHECK, larger_of_cell_3_of_2, "", {0},
     {10, 1}, {0}},
    {"operation 6 with cell 3 of three, version 1, written", CALL_WRITE, larger_of_cell_3_of_1, "",
     {0}, {10, 1}, {0}},
    {"operation 6 with a constant, version 2", CALL_CHECK, larger_with_constant_of_2, "", {0},
     {10, 1}, {0}},
    {"operation 6 with a constant, version 1, written", CALL_WRITE, larger_with_constant_of_1, "",
     {0}, {10, 1}, {0}},
    {"operation 6, and a copy past the count, version 2", CALL_CHECK, copy_past_the_count_of_2, "",
     {0}, {10, 1}, {0}},
    {"operation 6, and a copy past the count, version 1, written", CALL_WRITE,
     copy_past_the_count_of_1, "", {0}, {10, 1}, {0}},
    {"operation 6 past the count, version 2", CALL_CHECK, larger_past_the_count_of_2, "", {0},
     {10, 1}, {0}},
    {"operation 6 past the count, version 1, written", CALL_WRITE, larger_past_the_count_of_1, "",
     {0}, {10, 1}, {0}},
    {"operation 6 against the modes, version 1", CALL_CHECK, larger_against_of_1, "", {0}, {11, 1},
     {0}},
    {"operation 6 against the modes, version 2", CALL_CHECK, larger_against_of_2, "", {0}, {18, 1},
     {0}},
    {"operation 6 against the modes, version 2, read", CALL_READ, larger_against_of_2, "", {0},
     {18, 1}, {0}},
    {"operation 6 against the modes, version 2, plain run", CALL_PLAIN, larger_against_of_2, "",
     START_6, {18, 1}, START_6},
    {"operation 6 against the modes, version 2, run", CALL_RUN, larger_against_of_2, "0", START_6,
     {18, 1}, START_6},
    {"operation 6 against the modes, version 2, written", CALL_WRITE, larger_against_of_2, "", {0},
     {18, 1}, {0}},
    {"operation 6 against the modes, version 1, written", CALL_WRITE, larger_against_of_1, "", {0},
     {18, 1}, {0}},
    {"operation 6 reads mode 2 at once, version 1", CALL_CHECK, larger_at_once_of_1, "", {0},
     {11, 1}, {0}},
    {"operation 6 reads mode 2 at once, version 2", CALL_CHECK, larger_at_once_of_2, "", {0},
     {18, 1}, {0}},
    {"operation 6 reads mode 2 at once, version 1, written", CALL_WRITE, larger_at_once_of_1, "",
     {0}, {18, 1}, {0}},
    {"11 and then 18 on one task, version 1", CALL_CHECK, against_before_of_1, "", {0}, {11, 1},
     {0}},
    {"11 and then 18 on one task, version 2", CALL_CHECK, against_before_of_2, "", {0}, {18, 1},
     {0}},
    {"11 and then 18 on one task, version 2, written", CALL_WRITE, against_before_of_2, "", {0},
     {18, 1}, {0}},
    {"11 and then 18 on one task, version 1, written", CALL_WRITE, against_before_of_1, "", {0},
     {18, 1}, {0}},
    {"18 and then 11 on one task, version 1", CALL_CHECK, against_after_of_1, "", {0}, {11, 1},
     {0}},
    {"18 and then 11 on one task, version 2", CALL_CHECK, against_after_of_2, "", {0}, {18, 1},
     {0}},
    {"18 and then 11 on one task, version 1, written", CALL_WRITE, against_after_of_1, "", {0},
     {18, 1}, {0}},
    {"17 and 18 on one task, version 1", CALL_CHECK, larger_and_17_of_1, "", {0}, {17, 1}, {0}},
    {"17 and 18 on one task, version 2", CALL_CHECK, larger_and_17_of_2, "", {0}, {18, 1}, {0}},
    {"17 and 18 on one task, version 2, read", CALL_READ, larger_and_17_of_2, "", {0}, {18, 1},
     {0}},
    {"17 and 18 on one task, version 2, plain run", CALL_PLAIN, larger_and_17_of_2, "", START_6,
     {18, 1}, START_6},
    {"17 and 18 on one task, version 2, run", CALL_RUN, larger_and_17_of_2, "0", START_6, {18, 1},
     START_6},
    {"17 and 18 on one task, version 2, written", CALL_WRITE, larger_and_17_of_2, "", {0}, {18, 1},
     {0}},
    {"17 and 18 on one task, version 1, written", CALL_WRITE, larger_and_17_of_1, "", {0}, {18, 1},
     {0}},
    {"11, 17 and 18 on one task, version 1", CALL_CHECK, larger_and_11_and_17_of_1, "", {0},
     {11, 1}, {0}},
    {"11, 17 and 18 on one task, version 2", CALL_CHECK, larger_and_11_and_17_of_2, "", {0},
     {18, 1}, {0}},
    {"11, 17 and 18 on one task, version 1, written", CALL_WRITE, larger_and_11_and_17_of_1, "",
     {0}, {18, 1}, {0}},

    /* 18 beside the numbers of another task */
    {"18 on task 1 beside 6 on task 2, version 1", CALL_CHECK, larger_before_6_of_1, "", {0},
     {6, 2}, {0}},
    {"18 on task 1 beside 6 on task 2, version 2", CALL_CHECK, larger_before_6_of_2, "", {0},
     {18, 1}, {0}},
    {"18 on task 1 beside 6 on task 2, version 2, written", CALL_WRITE, larger_before_6_of_2, "",
     {0}, {18, 1}, {0}},
    {"18 on task 1 beside 6 on task 2, version 1, written", CALL_WRITE, larger_before_6_of_1, "",
     {0}, {18, 1}, {0}},
    {"18 on task 1 beside 10 on task 2, version 1", CALL_CHECK, larger_before_10_of_1, "", {0},
     {10, 2}, {0}},
    {"18 on task 1 beside 10 on task 2, version 2", CALL_CHECK, larger_before_10_of_2, "", {0},
     {18, 1}, {0}},
    {"18 on task 1 beside 10 on task 2, version 1, written", CALL_WRITE, larger_before_10_of_1, "",
     {0}, {18, 1}, {0}},
    {"18 on task 1 beside 11 on task 2, version 1", CALL_CHECK, larger_before_11_of_1, "", {0},
     {11, 2}, {0}},
    {"18 on task 1 beside 11 on task 2, version 2", CALL_CHECK, larger_before_11_of_2, "", {0},
     {18, 1}, {0}},
    {"18 on task 1 beside 11 on task 2, version 1, written", CALL_WRITE, larger_before_11_of_1, "",
     {0}, {18, 1}, {0}},
    {"18 on task 1 beside 17 on task 2, version 1", CALL_CHECK, larger_before_17_of_1, "", {0},
     {17, 2}, {0}},
    {"18 on task 1 beside 17 on task 2, version 2", CALL_CHECK, larger_before_17_of_2, "", {0},
     {18, 1}, {0}},
    {"18 on task 1 beside 17 on task 2, version 1, written", CALL_WRITE, larger_before_17_of_1, "",
     {0}, {18, 1}, {0}},
    {"18 on task 2 beside 6 on task 1, version 2", CALL_CHECK, larger_after_6_of_2, "", {0},
     {6, 1}, {0}},
    {"18 on task 2 beside 6 on task 1, version 1, written", CALL_WRITE, larger_after_6_of_1, "",
     {0}, {6, 1}, {0}},
    {"18 on task 2 beside 11 on task 1, version 2", CALL_CHECK, larger_after_11_of_2, "", {0},
     {11, 1}, {0}},
    {"18 on task 2 beside 11 on task 1, version 1, written", CALL_WRITE, larger_after_11_of_1, "",
     {0}, {11, 1}, {0}},
    {"18 on task 2 beside 17 on task 1, version 2", CALL_CHECK, larger_after_17_of_2, "", {0},
     {17, 1}, {0}},
    {"18 on task 2 beside 17 on task 1, version 1, written", CALL_WRITE, larger_after_17_of_1, "",
     {0}, {17, 1}, {0}},

    /* 18 after the numbers of a file and of the writer */
    {"18 beside 1", CALL_CHECK, larger_a_byte_short, "", {0}, {1, 0}, {0}},
    {"18 on task 1 beside 2 in the last block", CALL_CHECK, larger_before_check, "", {0}, {2, 19},
     {0}},
    {"18 on task 1 beside 3 in the last block", CALL_CHECK, larger_before_head, "", {0}, {3, 19},
     {0}},
    {"18 on task 1 beside 3 for the version of the last block", CALL_CHECK, larger_before_version,
     "", {0}, {3, 19}, {0}},
    {"18 on task 1 beside 4 in the last block", CALL_CHECK, larger_before_sizes, "", {0}, {4, 19},
     {0}},
    {"18 on task 1 beside 5 in the last block", CALL_CHECK, larger_before_rest, "", {0}, {5, 19},
     {0}},
    {"18 beside 15, version 1", CALL_WRITE, larger_beside_15_of_1, "", {0}, {15, 0}, {0}},
    {"18 beside 15, version 2", CALL_WRITE, larger_beside_15_of_2, "", {0}, {15, 0}, {0}},
    {"18 beside 22", CALL_WRITE, larger_beside_22, "", {0}, {22, 0}, {0}},
    {"18 beside 9 workers, version 1", CALL_WRITE, larger_beside_9_workers_of_1, "", {0}, {4, 0},
     {0}},
    {"18 beside 9 workers, version 2", CALL_WRITE, larger_beside_9_workers_of_2, "", {0}, {4, 0},
     {0}},
    {"18 beside 33 cells, version 1", CALL_WRITE, larger_beside_33_cells_of_1, "", {0}, {4, 0},
     {0}},
    {"18 beside 33 cells, version 2", CALL_WRITE, larger_beside_33_cells_of_2, "", {0}, {4, 0},
     {0}},

    /* and before 12, 13, 14 and 16 */
    {"operation 6 and 16, version 1, read", CALL_READ, larger_beside_16_of_1, "", {0}, {16, 0},
     {0}},
    {"18 beside 16, version 2, read", CALL_READ, larger_beside_16_of_2, "", {0}, {18, 1}, {0}},
    {"18 beside 16, version 1, written", CALL_WRITE, larger_beside_16_of_1, "", {0}, {18, 1}, {0}},
    {"18 beside 16, version 2, written", CALL_WRITE, larger_beside_16_of_2, "", {0}, {18, 1}, {0}},
    {"operation 6 and 12, version 1, plain run", CALL_PLAIN, larger_with_four_cells_of_1, "",
     START_6, {12, 0}, START_6},
    {"18 beside 12, version 2, plain run", CALL_PLAIN, larger_with_four_cells_of_2, "", START_6,
     {18, 1}, START_6},
    {"operation 6 and 12, version 1, run", CALL_RUN, larger_with_four_cells_of_1, "0", START_6,
     {12, 0}, START_6},
    {"18 beside 12, version 2, run", CALL_RUN, larger_with_four_cells_of_2, "0", START_6, {18, 1},
     START_6},
    {"operation 6 and 13, version 1", CALL_RUN, larger_too_long_of_1, NULL, START_6, {13, 0},
     START_6},
    {"18 beside 13, version 2", CALL_RUN, larger_too_long_of_2, NULL, START_6, {18, 1}, START_6},
    {"operation 6 and 14, version 1", CALL_RUN, operation_6_of_1, "01", START_6, {14, 1}, START_6},
    {"18 beside 14, version 2", CALL_RUN, operation_6_of_2, "01", START_6, {18, 1}, START_6},
};

const uint32_t larger_case_count = sizeof larger_cases / sizeof larger_cases[0];
