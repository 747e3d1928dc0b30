/*
 * A reference for the calls of sflw.h, in C, written from the scope document
 * (below: 01) and the change requests after it (02) alone. Each call does what
 * the one of the same name in sflw.h does, and has the same answer.
 */
#ifndef REF_H
#define REF_H

#include "sflw.h"

uint32_t ref_check(const uint8_t *file, size_t file_len,
                   sflw_check_answer *answer);

uint32_t ref_read(const uint8_t *file, size_t file_len,
                  uint8_t *rows, size_t rows_len,
                  sflw_read_answer *answer);

uint32_t ref_write(const uint8_t *rows, size_t rows_len,
                   uint32_t version, uint32_t workers, uint32_t cells,
                   uint8_t *out, size_t out_len,
                   sflw_write_answer *answer);

uint32_t ref_plain(const uint8_t *file, size_t file_len,
                   uint32_t *cells, size_t cells_len,
                   sflw_plain_answer *answer);

uint32_t ref_run(const uint8_t *file, size_t file_len,
                 uint32_t *cells, size_t cells_len,
                 const uint8_t *schedule, size_t schedule_len,
                 sflw_run_answer *answer);

/* The check of one row of 48 bytes by itself, as a reader of a file of this
   version, 1 or 2, makes it: the first of 6 to 10, 18, 11 and 17 that the row
   breaks, 0 if none; 4 where the cells are over 32. */
uint32_t ref_row(const uint8_t *row, uint32_t version, uint32_t workers, uint32_t cells);

/* Fletcher's check of 01 over any number of bytes up to 5,000: A in the low
   byte, B in the next. Here for the published vectors. */
uint32_t ref_fletcher(const uint8_t *bytes, size_t length);

#endif
