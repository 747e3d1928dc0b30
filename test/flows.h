/*
 * Flows and flow files for the tests, with no help from the code under test:
 * the layout, the check and the rules of a row stand here once more, written
 * from the scope document (01) and the change requests after it (02).
 */
#ifndef FLOWS_H
#define FLOWS_H

#include "random.h"

#include <stddef.h>
#include <stdint.h>

enum {
    MOST_TASKS = 200,
    MOST_WORKERS = 8,
    MOST_CELLS = 32,
    MOST_VERSION = 2,
    ROW_BYTES = 48,
    BLOCK_BYTES = 512,
    MOST_BLOCKS = 20,
    MOST_FILE = MOST_BLOCKS * BLOCK_BYTES
};

struct sample {
    uint32_t version;
    uint32_t tasks;
    uint32_t workers;
    uint32_t cells;
    uint8_t rows[MOST_TASKS * ROW_BYTES];
};

/* Which operations may stand: those of the codes 1 to 5, or "the larger of", of
   code 6, as well. That one may only where a file of version 1 is read (02, Q-9). */
enum codes { FIVE_CODES = 5, SIX_CODES = 6 };

/* The most that may stand in a file of this version that is read. */
enum codes codes_of(uint32_t version);

/* Flow A of 01, "A flow on the bench", of version 1. */
void make_flow_a(struct sample *flow);

/* A valid row: any owner, accesses, modes and operations of these codes that 01
   allows, with each cell of mode 2 written by some operation (02, Q-6). Its cells
   are below `hot`, which is at most the flow's cells. */
void make_row(struct random *random, uint8_t *row, uint32_t workers, uint32_t hot,
              enum codes codes);

/* A valid flow of these sizes, of version 1. With five codes its rows are valid
   in version 2 as well, and for the writer. */
void make_flow(struct random *random, struct sample *flow,
               uint32_t tasks, uint32_t workers, uint32_t cells, enum codes codes);

/* The same, with four writes and six operations in every task: the largest
   total for its sizes. Needs 4 cells. */
void make_full_flow(struct random *random, struct sample *flow,
                    uint32_t tasks, uint32_t workers, uint32_t cells, enum codes codes);

/* The steps that owners make of their tasks: 2 for each read, 4 for each write
   and 1 for each operation. */
uint32_t own_of(const struct sample *flow);

/* The flow's total, as 01 has it: those, and for each task one step of each
   other worker. */
uint32_t total_of(const struct sample *flow);

uint32_t blocks_of(uint32_t tasks);

/* The row of a task, counted from 0, in a file. */
uint8_t *row_in_file(uint8_t *file, uint32_t index);

/* The file of a flow; answers its length. */
size_t make_file(const struct sample *flow, uint8_t *file);

/* The first task, from 1, that has an operation 6, of a file or of rows that lie
   side by side; 0 if none has. */
uint32_t larger_in_file(const uint8_t *file, uint32_t tasks);
uint32_t larger_in_rows(const uint8_t *rows, uint32_t tasks);

/* The other one of versions 1 and 2. */
uint8_t other_version(uint8_t version);

/* Whether every block of a file says this version. */
bool all_of_version(const uint8_t *file, size_t length, uint32_t version);

/* Puts the check of a block right. */
void put_check(uint8_t *block);

/* Makes fault 6 to 11, 17 or 18 in a row that has no fault of that number or one
   before it in the order, which has 18 between 10 and 11. After it that number is
   the first that the row has. With six codes 18 is no fault: operation 6 is put
   into the row all the same, and a row that was valid still is. */
void spoil_row(struct random *random, uint8_t *row, uint32_t number,
               uint32_t workers, uint32_t cells, enum codes codes);

/* Makes fault 2 to 5 in a block, in a file of `blocks` blocks that has no
   fault at the blocks before it, nor one of that number or a lower one at
   this block. After it that number is the first at that block, and the blocks
   before it still have none. */
void spoil_block(struct random *random, uint8_t *file, uint32_t blocks,
                 uint32_t index, uint32_t number);

#endif
