/* The five calls of sflw.h as a table, so that a test can hold one
   implementation against another. */
#ifndef CALLS_H
#define CALLS_H

#include "ref.h"
#include "sflw.h"

struct calls {
    const char *name;
    uint32_t (*check)(const uint8_t *, size_t, sflw_check_answer *);
    uint32_t (*read)(const uint8_t *, size_t, uint8_t *, size_t, sflw_read_answer *);
    uint32_t (*write)(const uint8_t *, size_t, uint32_t, uint32_t, uint32_t, uint8_t *, size_t,
                      sflw_write_answer *);
    uint32_t (*plain)(const uint8_t *, size_t, uint32_t *, size_t, sflw_plain_answer *);
    uint32_t (*run)(const uint8_t *, size_t, uint32_t *, size_t, const uint8_t *, size_t,
                    sflw_run_answer *);
};

/* The check of one row by itself, of the crate row_alone, as a reader of a file
   of this version makes it: the first of 6 to 10, 18, 11 and 17 that the row
   breaks, 0 if none; 4 where the cells are over 32. */
uint32_t row_alone(const uint8_t *row, uint32_t version, uint32_t workers, uint32_t cells);

#define LIBRARY_CALLS {"library", sflw_check, sflw_read, sflw_write, sflw_plain, sflw_run}
#define REFERENCE_CALLS {"reference", ref_check, ref_read, ref_write, ref_plain, ref_run}

#endif
