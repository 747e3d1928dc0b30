#include "stretches.h"

#include <stdio.h>
#include <string.h>

/* ---- schedules --------------------------------------------------------- */

static void shuffle(struct random *random, uint8_t *names, uint32_t count)
{
    for (uint32_t left = count; left > 1; left--) {
        uint32_t at = below(random, left);
        uint8_t kept = names[at];
        names[at] = names[left - 1];
        names[left - 1] = kept;
    }
}

void put_stretch(struct random *random, struct test_case *made, uint32_t workers, uint32_t again)
{
    uint8_t *names = made->schedule + made->schedule_len;

    for (uint32_t i = 0; i < workers; i++)
        names[i] = (uint8_t)i;
    for (uint32_t i = workers; i < workers + again; i++)
        names[i] = (uint8_t)below(random, workers);
    shuffle(random, names, workers + again);
    made->schedule_len += workers + again;
}

/* So many names more leave room for all the stretches: the total times the
   workers is 46,400 at most. */
static uint32_t some_again(struct random *random, const struct stretches *stretches)
{
    uint32_t room = MOST_SCHEDULE / stretches->total - stretches->workers;
    uint32_t most = room < stretches->workers ? room : stretches->workers;
    return below(random, most + 1);
}

void put_stretches(struct random *random, struct test_case *made, const struct sample *flow,
                   enum stretch_kind kind)
{
    uint32_t own = own_of(flow);
    uint32_t total = total_of(flow);
    bool of_total = kind == TOTAL_STRETCHES || kind == AGAIN_STRETCHES;
    struct stretches stretches = {kind, of_total ? total : own, flow->tasks, flow->workers, own,
                                  total};

    made->schedule_len = 0;
    for (uint32_t i = 0; i < stretches.whole; i++) {
        uint32_t again = kind == AGAIN_STRETCHES ? some_again(random, &stretches) : 0;
        put_stretch(random, made, flow->workers, again);
    }
    if (kind == FEWER_STRETCHES) {
        made->schedule_len = below(random, own * flow->workers);
        stretches.whole = (uint32_t)made->schedule_len / flow->workers;
    }
    made->stretches = stretches;
}

/* ---- answers ----------------------------------------------------------- */

/* All advanced, all is done, and every other step was held. */
static bool counts_of_finished(const struct test_case *given, const sflw_run_answer *run)
{
    const struct stretches *in = &given->stretches;
    return run->advanced == in->total && run->held == given->schedule_len - in->total &&
           run->done == in->tasks;
}

/* While it is unfinished, with each worker named once in each stretch. */
static const char *misdeed_named_once(const struct test_case *given, const sflw_run_answer *run)
{
    const struct stretches *in = &given->stretches;
    uint32_t longest = in->own * in->workers;

    if (given->schedule_len >= longest)
        return "did not finish in own times workers steps, each worker once in each stretch";
    if (run->held > longest - in->total)
        return "was held more often than own times workers less the total, and is unfinished";
    if (run->held > in->total * (in->workers - 1))
        return "was held more often than the total times the other workers, and is unfinished";
    return NULL;
}

const char *stretches_misdeed(const struct test_case *given, const sflw_run_answer *run)
{
    const struct stretches *in = &given->stretches;

    if (in->kind == NO_STRETCHES)
        return NULL;
    if (run->finished != 0)
        return counts_of_finished(given, run) ? NULL : "finished, but not with the total's counts";
    if (run->advanced >= in->total)
        return "made the total of advancing steps, and is unfinished";
    if (in->whole >= in->total)
        return "did not finish in as many stretches as the total";
    if (run->advanced < in->whole)
        return "was held throughout a stretch, and is unfinished";
    return in->kind == AGAIN_STRETCHES ? NULL : misdeed_named_once(given, run);
}

/* ---- the flows that take longest ---------------------------------------- */

struct longest longest_at(uint32_t index)
{
    static const uint8_t tasks[LONGEST_TASKS] = {1, 2, 3, MOST_TASKS};
    uint32_t flow = index / LENGTHS;
    return (struct longest){tasks[flow % LONGEST_TASKS], flow / LONGEST_TASKS + 1,
                            (enum length)(index % LENGTHS)};
}

/* Cells 0 to 3 become 1 to 4; then cell 0 what cell 1 is, and cell 1 the sum of
   cells 1 and 2. None of this goes by the version: the flow is of version 1 with
   an odd number of workers, else of version 2. */
static void make_longest_flow(struct sample *flow, uint32_t tasks, uint32_t workers)
{
    static const uint8_t row[ROW_BYTES] = {0, 4, 6, 0, 0, 2, 1, 2, 2, 2, 3, 2,
                                           1, 0, 0, 0, 1, 0, 1, 1, 0, 0, 2, 0,
                                           1, 2, 0, 0, 3, 0, 1, 3, 0, 0, 4, 0,
                                           2, 0, 1, 0, 0, 0, 3, 1, 2, 0, 0, 0};
    flow->version = 2 - workers % 2;
    flow->tasks = tasks;
    flow->workers = workers;
    flow->cells = LONGEST_CELLS;
    for (uint32_t i = 0; i < tasks; i++) {
        memcpy(flow->rows + i * ROW_BYTES, row, ROW_BYTES);
        flow->rows[i * ROW_BYTES] = (uint8_t)(workers - 1);
    }
}

/* Of four writes and six operations. */
static uint32_t own_of_longest(const struct longest *from)
{
    return 22 * from->tasks;
}

static uint32_t total_of_longest(const struct longest *from)
{
    return own_of_longest(from) + from->tasks * (from->workers - 1);
}

static uint32_t steps_of_longest(const struct longest *from)
{
    if (from->length == TOTAL_TIMES_WORKERS)
        return total_of_longest(from) * from->workers;
    return own_of_longest(from) * from->workers - (from->length == ONE_SHORT ? 1 : 0);
}

void make_longest_case(const struct longest *from, struct test_case *made)
{
    static const char *const lengths[LENGTHS] = {"one step short", "own steps each",
                                                 "total steps each"};
    static const enum stretch_kind kinds[LENGTHS] = {FEWER_STRETCHES, OWN_STRETCHES,
                                                     TOTAL_STRETCHES};
    static char name[80];
    struct sample flow;

    make_longest_flow(&flow, from->tasks, from->workers);
    snprintf(name, sizeof name, "all tasks the last worker's: tasks %u workers %u, %s",
             (unsigned)from->tasks, (unsigned)from->workers, lengths[from->length]);
    made->call = CALL_RUN;
    made->kind = name;
    made->known = true;
    made->number = 0;
    made->place = 0;
    made->version = flow.version;
    made->workers = from->workers;
    made->cells = LONGEST_CELLS;
    made->input_len = make_file(&flow, made->input);
    made->output_len = 4 * LONGEST_CELLS;
    memset(made->output, 0, made->output_len);
    made->schedule_len = steps_of_longest(from);
    for (uint32_t i = 0; i < made->schedule_len; i++)
        made->schedule[i] = (uint8_t)(i % from->workers);
    made->stretches = (struct stretches){
        kinds[from->length], (uint32_t)made->schedule_len / from->workers, from->tasks,
        from->workers, own_of_longest(from), total_of_longest(from)};
}

/* The last worker goes on at each of its steps, and is the last to be past the
   last task. Each other is so once it has counted the tasks; from then on it is
   held. */
void longest_answer(const struct longest *from, uint32_t answer[MOST_ANSWER_WORDS],
                    uint32_t cells[LONGEST_CELLS])
{
    static const uint32_t left[LONGEST_CELLS] = {2, 5, 3, 4};
    uint32_t missing = from->length == ONE_SHORT ? 1 : 0;
    uint32_t total = total_of_longest(from);
    uint32_t held = steps_of_longest(from) - (total - missing);
    bool last_held = from->length == TOTAL_TIMES_WORKERS && from->workers > 1;
    uint32_t workers_held = from->workers - (last_held ? 0 : 1);

    memset(answer, 0, 4 * MOST_ANSWER_WORDS);
    answer[2] = total - missing;
    answer[3] = held;
    answer[4] = from->tasks - missing;
    answer[5] = 1 - missing;
    answer[6] = held;
    for (uint32_t i = 0; i < workers_held; i++)
        answer[9 + 2 * i] = SFLW_PAST_LAST;
    memcpy(cells, left, sizeof left);
}
