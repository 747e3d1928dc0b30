/*
 * Task flows: the check of a flow file, its reader and writer, the plain run
 * and the stepped run.
 *
 * Every call fills its answer and returns the answer's number: 0 for success,
 * 1 to 18 or 22 for a refusal. The place says where the fault is: a block (from
 * 0), a task (from 1) or the index of a schedule byte (from 0), and is 0 where
 * none is named. With a refusal every count in the answer is 0, the version is
 * 0, no worker was held, and all other lent memory is as it was.
 *
 * A flow is of version 1 or 2, and every block of its file says which.
 * Operation 5 gives a the two low bytes of b, exchanged; the high half of a
 * becomes 0 in version 1, and that of b in version 2. Operation 6, the larger
 * of a and b, is retired: a file of version 1 may have it, one of version 2 may
 * not, and the writer takes it in neither. In all else the two versions are the
 * same.
 *
 * A flow file has the refusals 1; then 2 to 5, block by block; then, task by
 * task, 6 to 10, 18, 11 and 17. 3 covers a version that is neither 1 nor 2, or
 * is not block 0's. 17 is a cell of mode 2, write only, that no operation of
 * its task writes. 18 is an operation 6 in a file of version 2.
 *
 * Lengths are in bytes, but for cells_len, which counts cells of 32 bits. A
 * pointer must not be null, even with length 0. Nothing that is lent for
 * writing may overlap anything else that is lent.
 */
#ifndef SFLW_H
#define SFLW_H

#include <stddef.h>
#include <stdint.h>

#ifdef __cplusplus
extern "C" {
#endif

typedef struct sflw_check_answer {
    uint32_t number;
    uint32_t place;
    uint32_t tasks;   /* 1 to 200 */
    uint32_t workers; /* 1 to 8 */
    uint32_t cells;   /* 1 to 32 */
    uint32_t total;   /* the flow's total: the advancing steps of a finished run */
    uint32_t version; /* 1 or 2 */
} sflw_check_answer;

typedef struct sflw_read_answer {
    uint32_t number;
    uint32_t place;
    uint32_t bytes; /* written to rows: 48 for each task */
    uint32_t tasks;
    uint32_t workers;
    uint32_t cells;
    uint32_t version;
} sflw_read_answer;

typedef struct sflw_write_answer {
    uint32_t number;
    uint32_t place;
    uint32_t bytes; /* written to out: 512 for each block */
} sflw_write_answer;

typedef struct sflw_plain_answer {
    uint32_t number;
    uint32_t place;
} sflw_plain_answer;

/*
 * The latest held step of a worker: why it was held, and the cell that was
 * waited for. The cell is 0 with the reasons 0 and 1, which name none.
 */
#define SFLW_NEVER_HELD 0u    /* no step of the worker was held, or the flow
                                 does not have the worker */
#define SFLW_PAST_LAST 1u     /* the worker is past the last task */
#define SFLW_WRITE_DIFFERS 2u /* the last write of the cell differs: it waits
                                 for an earlier task that writes the cell */
#define SFLW_READS_DIFFER 3u  /* the reads of the cell differ: it waits for
                                 earlier tasks that read the cell */

typedef struct sflw_latest_held {
    uint32_t reason;
    uint32_t cell;
} sflw_latest_held;

typedef struct sflw_run_answer {
    uint32_t number;
    uint32_t place;
    uint32_t advanced; /* steps that advanced */
    uint32_t held;     /* steps that were held */
    uint32_t done;     /* tasks of which the last end of the last access has
                          been made: the owner has gone past the task, and
                          no worker waits for it */
    uint32_t finished; /* 1 if all workers are past the last task, else 0 */
    uint32_t past_last;     /* of the held steps, how many for each reason: */
    uint32_t write_differs; /* the three add up to held */
    uint32_t reads_differ;
    sflw_latest_held latest[8]; /* of workers 0 to 7 */
} sflw_run_answer;              /* 25 words of 32 bits */

/*
 * Checks a flow file. Refusals: the file's. On success it answers the flow's
 * sizes, its total and its version.
 */
uint32_t sflw_check(const uint8_t *file, size_t file_len,
                    sflw_check_answer *answer);

/*
 * Reads the rows out of a flow file, 48 bytes a task, task 1 first. Refusals:
 * the file's, then 16 if the rows do not fit. Bytes of rows after the last row
 * stay as they were. On success it answers the flow's sizes and its version.
 */
uint32_t sflw_read(const uint8_t *file, size_t file_len,
                   uint8_t *rows, size_t rows_len,
                   sflw_read_answer *answer);

/*
 * Writes a flow file from its rows, its version, its workers and its cells, of
 * which any value may be given. Refusals: 15, then 22 if the version is neither
 * 1 nor 2, then 4, then 6 to 10, 18, 11 and 17 task by task, then 16 if the
 * blocks do not fit. 18 is an operation 6, in either version: rows that were
 * read are written back as the same file, unless it was one of version 1 with
 * an operation 6. Bytes of out after the last block stay as they were.
 */
uint32_t sflw_write(const uint8_t *rows, size_t rows_len,
                    uint32_t version, uint32_t workers, uint32_t cells,
                    uint8_t *out, size_t out_len,
                    sflw_write_answer *answer);

/*
 * The plain run: the tasks one after another, in place on the lent cells,
 * which hold the start before and the result after. It goes by the file's
 * version. Refusals: the file's, then 12 if the cells lent are not as many as
 * the flow's.
 */
uint32_t sflw_plain(const uint8_t *file, size_t file_len,
                    uint32_t *cells, size_t cells_len,
                    sflw_plain_answer *answer);

/*
 * The stepped run: each byte of the schedule names the worker that tries its
 * next step. In place on the lent cells and by the file's version, as the plain
 * run. Refusals: the file's, then 12, then 13 if the schedule is over 65,536
 * bytes, then 14 at its first byte that names no worker. On success it answers
 * the counts, why steps were held, and the latest held step of each worker.
 *
 * With every worker named at least once in each stretch of the schedule, the
 * run has finished after at most total - tasks * (workers - 1) stretches, in
 * the words of the check's answer. So naming workers 0, 1, .. in turn, the total
 * times over, always finishes; that is 46,400 bytes at most.
 */
uint32_t sflw_run(const uint8_t *file, size_t file_len,
                  uint32_t *cells, size_t cells_len,
                  const uint8_t *schedule, size_t schedule_len,
                  sflw_run_answer *answer);

#ifdef __cplusplus
}
#endif

#endif
