/*
 * Cases that the scope document (01) names, "A flow on the bench", some at its
 * limits, and some for the change requests after it (02), with the answers that
 * they ask for. Those of operation 6 stand in larger_cases.c.
 */
#ifndef NAMED_CASES_H
#define NAMED_CASES_H

#include "cases.h"

enum { NAMED_CELLS = 4 };

struct named_case {
    const char *name;
    uint32_t call;
    void (*make)(struct test_case *made); /* the file or the rows */
    const char *schedule;                 /* a digit for each byte */
    uint32_t start[NAMED_CELLS];          /* the first cells; all others are 0 */
    uint32_t answer[MOST_ANSWER_WORDS];
    uint32_t cells[NAMED_CELLS]; /* after the call */
};

uint32_t named_case_count(void);
const struct named_case *named_case(uint32_t index);

void make_named_case(const struct named_case *from, struct test_case *made);

/* The file of a flow, or for the writer its rows, with what is lent for it. */
void put_flow(struct test_case *made, const struct sample *flow);

/* One task of one worker: cell 0, of mode 3, by one operation with cell 1. */
void one_operation(struct test_case *made, uint32_t version, uint8_t code);

#endif
