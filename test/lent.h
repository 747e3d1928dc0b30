/* Memory that is lent to a call, with guards around it, and the call of a
   test case on it. */
#ifndef LENT_H
#define LENT_H

#include "calls.h"
#include "cases.h"

/* Guard bytes on both sides; or the end, or the start, at a page that may not
   be touched, so that even a byte read beyond it ends the program. */
enum where { IN_THE_MIDDLE, AT_THE_END, AT_THE_START };

struct lent {
    uint8_t *first; /* all that may be touched */
    size_t room;
    uint8_t *at; /* the part that is lent */
    size_t length;
};

/* All that is lent to one call, and what it returned. */
struct memory {
    struct lent input;
    struct lent output;
    struct lent schedule;
    struct lent answer;
    uint32_t returned;
};

void open_memory(struct memory *memory);

/* Lends the case's bytes to its call. The answer is full of noise before. */
void call_case(const struct calls *calls, const struct test_case *given,
               enum where where, size_t shift, struct memory *memory);

uint32_t answer_at(const struct memory *memory, uint32_t index);

/* The whole answer of a run. */
sflw_run_answer run_answer(const struct memory *memory);

/* What a call did that no call may do, or null: a guard or an input that is
   not as it was, or an answer that no call has. */
const char *misdeed(const struct memory *memory, const struct test_case *given);

/* What a call did with operation 6 (02, Q-9): a reader refused it with 18 in a
   file of version 2; the writer did in version 1, or in version 2; or a file of
   version 1 that has it was accepted. */
enum larger { NO_LARGER, READER_REFUSED, WRITER_1_REFUSED, WRITER_2_REFUSED, FILE_ACCEPTED,
              LARGERS };

enum larger larger_met(const struct memory *memory, const struct test_case *given);

#endif
