/*
 * 01's "Errors that look right", each tried on small flows under random
 * schedules against the five statements of demand 3.
 *
 *     errors [FLOWS [SEED]]
 *
 * The steps stand here once more, written from the scope document (01) and the
 * change requests after it (02), with a switch for the error. Every other flow
 * is of version 2 (02, Q-8), and those have no operation 6 (02, Q-9). A line for
 * each error, 0 being none, has the number of flows in which each statement
 * failed. The program ends with 0 if for every error each statement that
 * docs/CONTRACTS.md names as failing failed in some flow and the others in none,
 * and case P10 shows the wrong swap in both versions. Some failures are rare: the
 * first error's of the values needs about 10,000 flows to show, so with far fewer
 * flows than without words the program ends with 1.
 */
#include "flows.h"
#include "words.h"

#include <inttypes.h>
#include <stdio.h>
#include <string.h>

enum { TASKS = 5, WORKERS = 3, CELLS = 3, OPERATIONS = 2, STEPS = 4 * CELLS + OPERATIONS };
enum { SCHEDULES = 12 }; /* for each flow and error */

enum error { NONE, POSTED_FIRST, MODE_3_A_READ, READS_NOT_AWAITED, HIGH_HALF_KEPT, ENDED_AT_ONCE,
             ERRORS };
enum statement { DECLARED, ORDER, PROGRESS, TOTAL, VALUES, STATEMENTS };
enum kind { WAIT_WRITE, WAIT_READS, OPERATE, END_READ, ZERO_READS, POST_WRITE };

struct step { enum kind kind; uint32_t at; }; /* at a cell, or at an operation's index */
struct counter { uint32_t last_write, reads; };
struct place { uint32_t task, step; };

struct machine {
    struct counter shared[CELLS], private[WORKERS][CELLS];
    struct place place[WORKERS];
    uint32_t cell[CELLS];
    uint32_t made[TASKS]; /* operations of each task */
    uint32_t advanced;
};

static const struct {
    const char *words;
    bool fails[STATEMENTS];
} errors[ERRORS] = {
    {"none", {0}},
    {"the last write posted before the reads are 0", {[ORDER] = 1, [PROGRESS] = 1, [VALUES] = 1}},
    {"read and write taken as a read", {[ORDER] = 1, [VALUES] = 1}},
    {"a writer waits for the last write only", {[ORDER] = 1, [PROGRESS] = 1, [VALUES] = 1}},
    {"the swap keeps the target's high half", {[DECLARED] = 1}},
    {"all accesses ended in one step", {[TOTAL] = 1}},
};

static enum error error;
static uint32_t version, tasks, workers;
static uint8_t rows[TASKS][ROW_BYTES];
static struct step steps[TASKS][STEPS]; /* the owner's, under the error */
static uint32_t step_count[TASKS];
static uint32_t total;
static uint32_t start[CELLS], plain[CELLS];
static struct machine machine;
static bool failed[STATEMENTS]; /* in this flow */

/* ---- the flow ---------------------------------------------------------- */

/* Leaves the first operations. A cell of mode 2 that they do not write is one
   of mode 1 or 3 from now on, which need not be written (02, Q-6). */
static void cut_operations(struct random *random, uint8_t *row)
{
    if (row[2] <= OPERATIONS)
        return;
    row[2] = OPERATIONS;
    for (uint32_t i = 0; i < row[1]; i++) {
        bool written = false;
        for (uint32_t j = 0; j < row[2]; j++)
            written |= row[12 + 6 * j + 1] == row[4 + 2 * i];
        if (row[5 + 2 * i] == 2 && !written)
            row[5 + 2 * i] = chance(random, 500) ? 1 : 3;
    }
}

static void make_small_flow(struct random *random)
{
    static struct sample flow;
    tasks = chance(random, 500) ? TASKS : between(random, 1, TASKS);
    workers = chance(random, 800) ? between(random, 2, WORKERS) : 1;
    make_flow(random, &flow, tasks, workers, between(random, 1, CELLS), codes_of(version));
    memcpy(rows, flow.rows, sizeof rows);
    for (uint32_t i = 0; i < tasks; i++)
        cut_operations(random, rows[i]);
    for (uint32_t i = 0; i < CELLS; i++)
        start[i] = (uint32_t)random_next(random);
}

static bool is_write(uint32_t mode)
{
    return mode == 2 || (mode == 3 && error != MODE_3_A_READ);
}

static void add_step(uint32_t task, enum kind kind, uint32_t at)
{
    steps[task][step_count[task]++] = (struct step){kind, at};
}

static void list_steps(uint32_t task)
{
    const uint8_t *row = rows[task];
    step_count[task] = 0;
    for (uint32_t i = 0; i < row[1]; i++) {
        add_step(task, WAIT_WRITE, row[4 + 2 * i]);
        if (is_write(row[5 + 2 * i]))
            add_step(task, WAIT_READS, row[4 + 2 * i]);
    }
    for (uint32_t i = 0; i < row[2]; i++)
        add_step(task, OPERATE, i);
    for (uint32_t i = 0; i < row[1]; i++) {
        if (is_write(row[5 + 2 * i])) {
            add_step(task, error == POSTED_FIRST ? POST_WRITE : ZERO_READS, row[4 + 2 * i]);
            add_step(task, error == POSTED_FIRST ? ZERO_READS : POST_WRITE, row[4 + 2 * i]);
        } else {
            add_step(task, END_READ, row[4 + 2 * i]);
        }
    }
}

/* A task's part of the total, from the flow alone. */
static uint32_t part_of_total(const uint8_t *row)
{
    uint32_t sum = row[2] + workers - 1;
    for (uint32_t i = 0; i < row[1]; i++)
        sum += is_write(row[5 + 2 * i]) ? 4 : 2;
    return sum;
}

static void operate(const uint8_t *operation, uint32_t *cells)
{
    uint32_t a = cells[operation[1]];
    uint32_t b = cells[operation[2]];
    uint32_t k = operation[4] + 256u * operation[5];
    uint32_t high = error == HIGH_HALF_KEPT ? a / 65536 : version == 2 ? b / 65536 : 0;
    uint32_t swapped = high * 65536 + b % 256 * 256 + b / 256 % 256;
    const uint32_t by_code[] = {a, k, b, a + b, a - b, swapped, a > b ? a : b};
    cells[operation[1]] = by_code[operation[0]];
}

/* ---- the statements ---------------------------------------------------- */

/* The mode in which a task names a cell, whatever the error; 0 if it does not. */
static uint32_t mode_of(const uint8_t *row, uint32_t cell)
{
    for (uint32_t i = 0; i < row[1]; i++)
        if (row[4 + 2 * i] == cell)
            return row[5 + 2 * i];
    return 0;
}

/* The cells that a task declares readable at an operation. */
static void list_readable(const uint8_t *row, uint32_t index, bool readable[CELLS])
{
    for (uint32_t cell = 0; cell < CELLS; cell++)
        readable[cell] = mode_of(row, cell) == 1 || mode_of(row, cell) == 3;
    for (uint32_t i = 0; i < index; i++)
        readable[row[12 + 6 * i + 1]] = true;
}

/* By 01's table of what a code reads. */
static bool within_modes(const uint8_t *row, uint32_t index)
{
    const uint8_t *operation = row + 12 + 6 * index;
    uint32_t code = operation[0];
    bool readable[CELLS];
    list_readable(row, index, readable);
    return mode_of(row, operation[1]) >= 2 && (code == 1 || readable[operation[2]]) &&
           (code == 1 || code == 2 || code == 5 || readable[operation[1]]);
}

/* By the cells: none changes but one that the task declares written, and that
   one is written the same where every cell not declared readable is another. */
static bool touches_declared(const uint8_t *row, uint32_t index)
{
    uint32_t written = row[12 + 6 * index + 1];
    uint32_t one[CELLS], other[CELLS];
    bool readable[CELLS];
    bool stay = true;
    list_readable(row, index, readable);
    for (uint32_t cell = 0; cell < CELLS; cell++) {
        one[cell] = machine.cell[cell];
        other[cell] = readable[cell] ? one[cell] : ~one[cell];
    }
    operate(row + 12 + 6 * index, one);
    operate(row + 12 + 6 * index, other);
    for (uint32_t cell = 0; cell < CELLS; cell++)
        stay &= cell == written || one[cell] == machine.cell[cell];
    return stay && mode_of(row, written) >= 2 && one[written] == other[written];
}

/* At an operation of a task, before it is made. Two modes are in conflict if
   both tasks name the cell and not both only read it. */
static void test_operation(uint32_t task, uint32_t index)
{
    failed[DECLARED] |= !within_modes(rows[task], index) || !touches_declared(rows[task], index);
    for (uint32_t i = 0; i < task; i++)
        for (uint32_t cell = 0; cell < CELLS; cell++)
            if (mode_of(rows[i], cell) * mode_of(rows[task], cell) > 1)
                failed[ORDER] |= machine.made[i] < rows[i][2];
}

/* Whether the step of a worker, if named next, advances. */
static bool advances(uint32_t w)
{
    const struct place *place = &machine.place[w];
    if (place->task == tasks || rows[place->task][0] != w)
        return place->task != tasks;
    struct step next = steps[place->task][place->step];
    if (next.kind == WAIT_WRITE)
        return machine.private[w][next.at].last_write == machine.shared[next.at].last_write;
    if (next.kind == WAIT_READS && error != READS_NOT_AWAITED)
        return machine.private[w][next.at].reads == machine.shared[next.at].reads;
    return true;
}

/* At the start and after each step that advances: others change nothing. */
static void test_point(void)
{
    bool finished = true;
    bool some_advances = false;
    for (uint32_t w = 0; w < workers; w++) {
        finished &= machine.place[w].task == tasks;
        some_advances |= advances(w);
    }
    failed[PROGRESS] |= !finished && !some_advances;
    failed[TOTAL] |= machine.advanced > total || finished != (machine.advanced == total);
    failed[VALUES] |= finished && memcmp(machine.cell, plain, sizeof plain) != 0;
}

/* ---- the steps --------------------------------------------------------- */

static void register_accesses(uint32_t w, uint32_t task)
{
    for (uint32_t i = 0; i < rows[task][1]; i++) {
        struct counter *private = &machine.private[w][rows[task][4 + 2 * i]];
        if (is_write(rows[task][5 + 2 * i]))
            *private = (struct counter){task + 1, 0};
        else
            private->reads++;
    }
}

static void make_own_step(uint32_t w, uint32_t task, struct step step)
{
    struct counter *private = &machine.private[w][step.at];
    struct counter *shared = &machine.shared[step.at];
    if (step.kind == OPERATE) {
        test_operation(task, step.at);
        operate(rows[task] + 12 + 6 * step.at, machine.cell);
        machine.made[task]++;
    } else if (step.kind == END_READ) {
        shared->reads++;
        private->reads++;
    } else if (step.kind == ZERO_READS) {
        shared->reads = 0;
    } else if (step.kind == POST_WRITE) {
        shared->last_write = task + 1;
        *private = (struct counter){task + 1, 0};
    }
}

static bool try_step(uint32_t w)
{
    uint32_t task = machine.place[w].task;
    uint32_t *step = &machine.place[w].step;
    if (!advances(w))
        return false;
    if (rows[task][0] != w) {
        register_accesses(w, task);
        *step = step_count[task];
    } else {
        bool all_ends = error == ENDED_AT_ONCE && steps[task][*step].kind >= END_READ;
        do
            make_own_step(w, task, steps[task][(*step)++]);
        while (all_ends && *step < step_count[task]);
    }
    if (*step == step_count[task])
        machine.place[w] = (struct place){task + 1, 0};
    machine.advanced++;
    test_point();
    return true;
}

/* A random schedule of random length; then all in turn until none advances. */
static void run_schedule(struct random *random)
{
    uint32_t bytes = below(random, 2 * total + 1);
    machine = (struct machine){0};
    memcpy(machine.cell, start, sizeof start);
    test_point();
    for (uint32_t i = 0; i < bytes; i++)
        try_step(below(random, workers));
    for (uint32_t w = 0, held = 0; held < workers; w = (w + 1) % workers)
        held = try_step(w) ? 0 : held + 1;
}

/* ---- the program ------------------------------------------------------- */

static void try_error(struct random random, uint64_t counts[STATEMENTS])
{
    total = 0;
    memcpy(plain, start, sizeof plain);
    memset(failed, 0, sizeof failed);
    for (uint32_t i = 0; i < tasks; i++) {
        list_steps(i);
        total += part_of_total(rows[i]);
        for (uint32_t j = 0; j < rows[i][2]; j++)
            operate(rows[i] + 12 + 6 * j, plain);
    }
    for (uint32_t i = 0; i < SCHEDULES; i++)
        run_schedule(&random);
    for (uint32_t i = 0; i < STATEMENTS; i++)
        counts[i] += failed[i];
}

/* Whether each statement that is to fail failed, and no other. */
static bool print_line(uint32_t which, const uint64_t counts[STATEMENTS])
{
    bool right = true;
    printf("%" PRIu32 " %-46s", which, errors[which].words);
    for (uint32_t i = 0; i < STATEMENTS; i++) {
        printf(" %8" PRIu64, counts[i]);
        right &= (counts[i] != 0) == errors[which].fails[i];
    }
    printf(right ? "\n" : "  wrong\n");
    return right;
}

/* The swap of case P10 in this version under an error. */
static uint32_t swap_under(enum error which)
{
    static const uint8_t operation[] = {5, 0, 1, 0, 0, 0};
    uint32_t cells[] = {UINT32_MAX, 74565};
    error = which;
    operate(operation, cells);
    return cells[0];
}

/* Whether it is what the version asks for, and the wrong one is not. */
static bool print_swap(uint32_t wanted)
{
    uint32_t swapped = swap_under(NONE);
    uint32_t kept = swap_under(HIGH_HALF_KEPT);
    printf("P10, the swap in version %" PRIu32 ": %" PRIu32 " by the rule, %" PRIu32
           " under error 4\n", version, swapped, kept);
    return swapped == wanted && kept != wanted;
}

int main(int count, char **arguments)
{
    struct words words = words_of("errors", count, arguments);
    uint64_t flows = next_number(&words, "FLOWS", 1, UINT32_MAX, 100000);
    uint64_t seed = next_number(&words, "SEED", 0, UINT64_MAX, 20220127);
    static uint64_t counts[ERRORS][STATEMENTS];
    static const uint32_t swaps[] = {0, 17699, 83235}; /* by version */
    bool right = true;
    no_more_words(&words);

    for (uint64_t i = 0; i < flows; i++) {
        struct random random = random_of_case(seed, i);
        version = 1 + i % 2;
        make_small_flow(&random);
        for (error = NONE; error < ERRORS; error++)
            try_error(random, counts[error]);
    }
    printf("of %" PRIu64 " flows, those in which a statement of demand 3 failed\n", flows);
    printf("%-48s declared    order progress    total   values\n", "error");
    for (uint32_t i = 0; i < ERRORS; i++)
        right &= print_line(i, counts[i]);
    for (version = 1; version <= MOST_VERSION; version++)
        right &= print_swap(swaps[version]);
    printf("%s docs/CONTRACTS.md says\n", right ? "as" : "wrong: not as");
    return right ? 0 : 1;
}
