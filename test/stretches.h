/*
 * Schedules made of stretches, in each of which every worker is named, and what
 * a run under one has to answer (02, Q-10): in each stretch some step advances
 * unless the run has finished, so the total's stretches finish; and with each
 * worker named once in each, the owners' own steps as stretches finish.
 */
#ifndef STRETCHES_H
#define STRETCHES_H

#include "cases.h"
#include "sflw.h"

/* Adds a stretch at the schedule's end: every worker, and so many names more of
   any, in any order. */
void put_stretch(struct random *random, struct test_case *made, uint32_t workers, uint32_t again);

/* A schedule of this kind, for the flow whose file the case has. */
void put_stretches(struct random *random, struct test_case *made, const struct sample *flow,
                   enum stretch_kind kind);

/* What no run answers under stretches, or null: the call was not refused. */
const char *stretches_misdeed(const struct test_case *given, const sflw_run_answer *run);

/* ---- the flows that take longest ---------------------------------------- */

/* All tasks are the last worker's, with four writes and six operations each, and
   the workers are named in turn: one step less than own times workers does not
   finish. For each number of workers, and some numbers of tasks, there is a case
   of each of these lengths. */
enum length { ONE_SHORT, OWN_TIMES_WORKERS, TOTAL_TIMES_WORKERS, LENGTHS };

enum { LONGEST_TASKS = 4, LONGEST_CELLS = 4 };
enum { LONGEST_CASES = MOST_WORKERS * LONGEST_TASKS * LENGTHS };

struct longest {
    uint32_t tasks;
    uint32_t workers;
    enum length length;
};

struct longest longest_at(uint32_t index);

void make_longest_case(const struct longest *from, struct test_case *made);

/* The whole answer that the case has to get, and its cells after the call. */
void longest_answer(const struct longest *from, uint32_t answer[MOST_ANSWER_WORDS],
                    uint32_t cells[LONGEST_CELLS]);

#endif
