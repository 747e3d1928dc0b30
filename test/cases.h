/*
 * Test cases: a call of sflw.h with all that is lent to it. Each depends on a
 * seed and its own number alone.
 */
#ifndef CASES_H
#define CASES_H

#include "flows.h"

enum call { CALL_CHECK = 1, CALL_READ, CALL_WRITE, CALL_PLAIN, CALL_RUN };

enum { ROOM_INPUT = 16384, ROOM_OUTPUT = 16384, ROOM_SCHEDULE = 70000 };

enum { MOST_SCHEDULE = 65536 };

/* How a run's schedule is made of stretches, in each of which every worker is
   named (02, Q-10). With own and total as in flows.h: */
enum stretch_kind {
    NO_STRETCHES,
    OWN_STRETCHES,   /* own stretches, each worker once in each */
    TOTAL_STRETCHES, /* total stretches, each worker once in each */
    FEWER_STRETCHES, /* fewer than own, once in each; the last may be cut off */
    AGAIN_STRETCHES, /* total stretches, some workers more than once in each */
    STRETCH_KINDS
};

struct stretches {
    enum stretch_kind kind;
    uint32_t whole; /* how many, one that is cut off not counted */
    uint32_t tasks; /* the flow's */
    uint32_t workers;
    uint32_t own;
    uint32_t total;
};

struct test_case {
    uint32_t call;
    const char *kind; /* how it was made, for a message */

    uint8_t input[ROOM_INPUT]; /* the file; for the writer the rows */
    size_t input_len;
    uint32_t version; /* the writer's */
    uint32_t workers;
    uint32_t cells;

    uint8_t output[ROOM_OUTPUT]; /* rows, out or cells, as they are lent */
    size_t output_len;           /* in bytes, for cells too */

    uint8_t schedule[ROOM_SCHEDULE];
    size_t schedule_len;
    struct stretches stretches; /* from which a run's counts are known, or their bounds */

    /* the answer, where it is known from how the case was made */
    bool known;
    uint32_t number;
    uint32_t place;
};

/* How large the flows and schedules are: of all sizes, or mostly a few tasks
   with now and then a larger flow. */
enum sizes { ALL_SIZES, MOSTLY_SMALL };

void make_case(uint64_t seed, uint64_t number, enum sizes sizes, struct test_case *made);

/* Names workers up to the schedule's length, in one of several ways. */
void some_names(struct random *random, struct test_case *made, uint32_t workers);

const char *call_name(uint32_t call);

/* The numbers that calls answer, from the lowest on: 0 for success, and the
   refusals 1 to 18 and 22. No call gives 19 to 21 yet, so that tables of numbers
   go by this list. */
enum { MOST_NUMBER = 22, NUMBERS = 20 };
extern const uint8_t numbers[NUMBERS];

bool is_number(uint32_t number);

enum { MOST_ANSWER_WORDS = 25 };

/* The words of a call's answer: 7, 7, 3, 2, 25. */
uint32_t answer_words(uint32_t call);

/* The name of a word of a call's answer. */
const char *answer_word(uint32_t call, uint32_t index);

/* Which word of the answers of check and read is the version. */
enum { VERSION_WORD = 6 };

#endif
