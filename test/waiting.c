#include "waiting.h"
#include "stretches.h"

#include <inttypes.h>
#include <stdio.h>
#include <string.h>

enum { FLOWS = 500, PREFIXES = 12 };

static const struct calls *calls;
static struct test_case *made; /* the flow, the start and the names so far */
static struct memory *memory;
static struct random random;
static uint32_t workers;
static uint32_t total;

/* What was tried, and what went wrong. */
static struct {
    uint32_t flow;
    uint32_t waits; /* of a step that would advance, for steps of others */
    uint32_t wrong_waits;
    uint32_t stretches; /* before the run had finished, and after it */
    uint32_t after_the_end;
    uint32_t wrong_stretches;
} tried;

/* ---- the run ----------------------------------------------------------- */

/* The answer after the first names of the schedule. */
static sflw_run_answer answer_after(size_t length)
{
    made->schedule_len = length;
    call_case(calls, made, IN_THE_MIDDLE, 0, memory);
    return run_answer(memory);
}

/* Whether a worker advances if it is named after the first names. */
static bool advances_after(size_t length, uint32_t worker)
{
    uint32_t before = answer_after(length).advanced;
    made->schedule[length] = (uint8_t)worker;
    return answer_after(length + 1).advanced == before + 1;
}

/* ---- a worker that would advance --------------------------------------- */

/* It still would after the names from `prefix` to `length`, of others. */
static void try_still(size_t prefix, size_t length, uint32_t worker)
{
    tried.waits++;
    if (advances_after(length, worker))
        return;
    if (tried.wrong_waits++ == 0)
        printf("%s: flow %" PRIu32 ", %zu steps: worker %" PRIu32 " would advance, and is held "
               "after %zu steps of others, the first of worker %u\n", calls->name, tried.flow,
               prefix, worker, length - prefix, made->schedule[prefix]);
}

/* A step of each other, and a while of steps of any of them. */
static void try_others(size_t prefix, uint32_t worker)
{
    uint32_t count = between(&random, 2, 30 * workers);

    if (workers == 1)
        return;
    for (uint32_t i = 1; i < workers; i++) {
        made->schedule[prefix] = (uint8_t)((worker + i) % workers);
        try_still(prefix, prefix + 1, worker);
    }
    for (uint32_t i = 0; i < count; i++) {
        uint32_t beside = between(&random, 1, workers - 1);
        made->schedule[prefix + i] = (uint8_t)((worker + beside) % workers);
    }
    try_still(prefix, prefix + count, worker);
}

/* ---- a stretch --------------------------------------------------------- */

static void try_stretch(size_t prefix)
{
    sflw_run_answer before = answer_after(prefix);
    put_stretch(&random, made, workers, below(&random, workers + 1));
    sflw_run_answer after = answer_after(made->schedule_len);

    if (before.finished != 0)
        tried.after_the_end++;
    else
        tried.stretches++;
    if ((after.advanced > before.advanced) == (before.finished == 0))
        return;
    if (tried.wrong_stretches++ == 0)
        printf("%s: flow %" PRIu32 ", %zu steps, finished %" PRIu32 ": advanced %" PRIu32
               ", and %" PRIu32 " after a stretch of %zu steps more\n", calls->name, tried.flow,
               prefix, before.finished, before.advanced, after.advanced,
               made->schedule_len - prefix);
}

/* ---- the flows --------------------------------------------------------- */

/* A small flow of few cells, so that workers wait, and any start. Every other
   flow is of version 2. */
static void make_waiting_flow(void)
{
    struct sample flow;
    uint32_t version = 1 + tried.flow % 2;

    workers = between(&random, 1, MOST_WORKERS);
    make_flow(&random, &flow, between(&random, 1, 10), workers, between(&random, 1, 3),
              codes_of(version));
    flow.version = version;
    total = total_of(&flow);
    made->call = CALL_RUN;
    made->kind = "kept waiting";
    made->known = false;
    made->stretches.kind = NO_STRETCHES;
    made->input_len = make_file(&flow, made->input);
    made->output_len = 4 * (size_t)flow.cells;
    for (size_t i = 0; i < made->output_len; i++)
        made->output[i] = (uint8_t)below(&random, 256);
}

static void try_prefix(size_t prefix)
{
    for (uint32_t worker = 0; worker < workers; worker++)
        if (advances_after(prefix, worker))
            try_others(prefix, worker);
    try_stretch(prefix);
}

static void print_tried(void)
{
    printf("kept waiting, on the %s: %" PRIu32 " waits tried, %" PRIu32 " wrong; %" PRIu32
           " stretches and %" PRIu32 " after the end, %" PRIu32 " wrong\n", calls->name,
           tried.waits, tried.wrong_waits, tried.stretches, tried.after_the_end,
           tried.wrong_stretches);
}

uint32_t try_waiting(const struct calls *with, struct test_case *room, struct memory *lent)
{
    calls = with;
    made = room;
    memory = lent;
    memset(&tried, 0, sizeof tried);
    for (; tried.flow < FLOWS; tried.flow++) {
        random = random_of_case(10, tried.flow);
        make_waiting_flow();
        for (uint32_t i = 0; i < PREFIXES; i++) {
            made->schedule_len = below(&random, 2 * total);
            some_names(&random, made, workers);
            try_prefix(made->schedule_len);
        }
    }
    print_tried();
    return tried.wrong_waits + tried.wrong_stretches;
}
