/*
 * The library against the reference: time and stack.
 *
 *     bench [SAMPLES]
 *
 * Both run in turn within each sample, on the processor's clock for this
 * thread. Shown are the median time of each and the median of the samples'
 * ratios. A step's time leaves out the check of the file before the run: the
 * time of an empty schedule is taken off.
 */
#define _DEFAULT_SOURCE

#include "calls.h"
#include "cases.h"
#include "words.h"

#include <inttypes.h>
#include <pthread.h>
#include <stdio.h>
#include <stdlib.h>
#include <string.h>
#include <sys/mman.h>
#include <time.h>

enum { MOST_SAMPLES = 101 };

/* Whose calls are made. What the measuring of a stack itself takes is
   measured on calls that do nothing, and taken off. */
enum side { LIBRARY, REFERENCE, NOTHING };

/* ---- the calls --------------------------------------------------------- */

static uint32_t nothing_check(const uint8_t *file, size_t file_len, sflw_check_answer *answer)
{
    (void)file;
    (void)file_len;
    answer->number = 0;
    return 0;
}

static uint32_t nothing_read(const uint8_t *file, size_t file_len, uint8_t *rows,
                             size_t rows_len, sflw_read_answer *answer)
{
    (void)file;
    (void)file_len;
    (void)rows;
    (void)rows_len;
    answer->number = 0;
    return 0;
}

static uint32_t nothing_write(const uint8_t *rows, size_t rows_len, uint32_t version,
                              uint32_t workers, uint32_t count, uint8_t *bytes, size_t length,
                              sflw_write_answer *answer)
{
    (void)rows;
    (void)rows_len;
    (void)version;
    (void)workers;
    (void)count;
    (void)bytes;
    (void)length;
    answer->number = 0;
    return 0;
}

static uint32_t nothing_plain(const uint8_t *file, size_t file_len, uint32_t *start,
                              size_t count, sflw_plain_answer *answer)
{
    (void)file;
    (void)file_len;
    (void)start;
    (void)count;
    answer->number = 0;
    return 0;
}

static uint32_t nothing_run(const uint8_t *file, size_t file_len, uint32_t *start, size_t count,
                            const uint8_t *schedule, size_t schedule_len,
                            sflw_run_answer *answer)
{
    (void)file;
    (void)file_len;
    (void)start;
    (void)count;
    (void)schedule;
    (void)schedule_len;
    answer->number = 0;
    return 0;
}

static uint32_t nothing_row(const uint8_t *row, uint32_t version, uint32_t workers,
                            uint32_t count)
{
    (void)row;
    (void)version;
    (void)workers;
    (void)count;
    return 0;
}

static const struct calls tables[] = {
    [LIBRARY] = LIBRARY_CALLS,
    [REFERENCE] = REFERENCE_CALLS,
    [NOTHING] = {"nothing", nothing_check, nothing_read, nothing_write, nothing_plain,
                 nothing_run},
};

/* The check of a row by itself, which is no call of the library. */
static uint32_t (*const row_checks[])(const uint8_t *, uint32_t, uint32_t, uint32_t) = {
    [LIBRARY] = row_alone,
    [REFERENCE] = ref_row,
    [NOTHING] = nothing_row,
};

/* ---- what is measured -------------------------------------------------- */

/* The flow that is measured, of version 1 where nothing else is said and without
   operation 6, which the writer refuses, its file, and two schedules that just
   finish. */
struct setting {
    struct sample flow;
    uint8_t file[MOST_FILE];
    size_t file_len;
    uint8_t fair[MOST_SCHEDULE];
    size_t fair_len;
    uint8_t random[MOST_SCHEDULE];
    size_t random_len;
};

static struct setting set;
static uint8_t out[MOST_FILE];
static uint32_t cells[MOST_CELLS];

static bool finishes(const uint8_t *schedule, size_t length)
{
    sflw_run_answer answer;
    ref_run(set.file, set.file_len, cells, set.flow.cells, schedule, length, &answer);
    return answer.finished == 1;
}

/* The fewest bytes of a schedule that finish, or all. */
static size_t just_finishes(const uint8_t *schedule)
{
    size_t least = 0;
    size_t most = MOST_SCHEDULE;
    while (least < most) {
        size_t middle = (least + most) / 2;
        if (finishes(schedule, middle))
            most = middle;
        else
            least = middle + 1;
    }
    return most;
}

static void make_setting(uint32_t tasks, uint32_t workers, uint32_t cell_count)
{
    struct random random = random_of_case(9450, 0);
    make_full_flow(&random, &set.flow, tasks, workers, cell_count, FIVE_CODES);
    set.file_len = make_file(&set.flow, set.file);
    for (uint32_t i = 0; i < MOST_SCHEDULE; i++) {
        set.fair[i] = (uint8_t)(i % workers);
        set.random[i] = (uint8_t)below(&random, workers);
    }
    set.fair_len = just_finishes(set.fair);
    set.random_len = just_finishes(set.random);
}

static void run_schedule(enum side side, const uint8_t *schedule, size_t length)
{
    sflw_run_answer answer;
    tables[side].run(set.file, set.file_len, cells, set.flow.cells, schedule, length, &answer);
}

static void run_fair(enum side side)
{
    run_schedule(side, set.fair, set.fair_len);
}

static void run_random(enum side side)
{
    run_schedule(side, set.random, set.random_len);
}

static void run_empty(enum side side)
{
    run_schedule(side, set.fair, 0);
}

static void check_once(enum side side)
{
    sflw_check_answer answer;
    tables[side].check(set.file, set.file_len, &answer);
}

static void read_once(enum side side)
{
    sflw_read_answer answer;
    tables[side].read(set.file, set.file_len, out, sizeof out, &answer);
}

static void write_once(enum side side)
{
    sflw_write_answer answer;
    tables[side].write(set.flow.rows, (size_t)set.flow.tasks * ROW_BYTES, set.flow.version,
                       set.flow.workers, set.flow.cells, out, sizeof out, &answer);
}

static void plain_once(enum side side)
{
    sflw_plain_answer answer;
    tables[side].plain(set.file, set.file_len, cells, set.flow.cells, &answer);
}

/* ---- time -------------------------------------------------------------- */

typedef void job(enum side side);

static uint32_t samples = 31;

static double nanoseconds(void)
{
    struct timespec time;
    clock_gettime(CLOCK_THREAD_CPUTIME_ID, &time);
    return (double)time.tv_sec * 1e9 + (double)time.tv_nsec;
}

static double time_of(job *once, enum side side, uint32_t times)
{
    double start = nanoseconds();
    for (uint32_t i = 0; i < times; i++)
        once(side);
    return (nanoseconds() - start) / times;
}

/* As many times as take about a millisecond. */
static uint32_t times_for(job *once, enum side side)
{
    double least = 1e6;
    for (uint32_t i = 0; i < 5; i++) {
        double one = time_of(once, side, 1);
        if (one < least)
            least = one;
    }
    return (uint32_t)(1e6 / (least + 1)) + 1;
}

static int by_value(const void *left, const void *right)
{
    double l = *(const double *)left;
    double r = *(const double *)right;
    return (l > r) - (l < r);
}

static double median(double *values, uint32_t count)
{
    qsort(values, count, sizeof *values, by_value);
    return values[count / 2];
}

struct measured {
    double times[2]; /* of one call, in nanoseconds */
    double ratio;
};

/* One call, less another where one is given. */
static struct measured measure(job *once, job *less)
{
    static double taken[2][MOST_SAMPLES];
    static double ratios[MOST_SAMPLES];
    struct measured measured;
    uint32_t times[2];

    for (enum side side = LIBRARY; side <= REFERENCE; side++)
        times[side] = times_for(once, side);
    for (uint32_t i = 0; i < samples; i++) {
        for (uint32_t turn = 0; turn < 2; turn++) {
            enum side side = (turn + i) % 2 == 0 ? LIBRARY : REFERENCE;
            taken[side][i] = time_of(once, side, times[side]);
            if (less != NULL)
                taken[side][i] -= time_of(less, side, times[side]);
        }
        ratios[i] = taken[LIBRARY][i] / taken[REFERENCE][i];
    }
    measured.times[LIBRARY] = median(taken[LIBRARY], samples);
    measured.times[REFERENCE] = median(taken[REFERENCE], samples);
    measured.ratio = median(ratios, samples);
    return measured;
}

static void print_head(const char *what)
{
    printf("\n%-34s %10s %10s %8s\n", what, "library", "reference", "ratio");
}

static void measure_line(const char *what, job *once, job *less, double units)
{
    struct measured measured = measure(once, less);
    printf("%-34s %10.3f %10.3f %8.2f\n", what, measured.times[LIBRARY] / units,
           measured.times[REFERENCE] / units, measured.ratio);
}

/* The same rows in version 2: about one operation in five is the swap. The steps
   of a run are the same, so that both schedules stay. */
static void turn_to_version_2(void)
{
    set.flow.version = 2;
    set.file_len = make_file(&set.flow, set.file);
}

static void time_largest(void)
{
    make_setting(MOST_TASKS, MOST_WORKERS, MOST_CELLS);
    print_head("200 tasks, 8 workers, 32 cells");
    measure_line("run, fair schedule: ns a step", run_fair, run_empty, (double)set.fair_len);
    measure_line("run, random schedule: ns a step", run_random, run_empty,
                 (double)set.random_len);
    measure_line("run, empty schedule: ns a byte", run_empty, NULL, (double)set.file_len);
    measure_line("check: ns a byte", check_once, NULL, (double)set.file_len);
    measure_line("read: ns a byte", read_once, NULL, (double)set.file_len);
    measure_line("write: ns a byte", write_once, NULL, (double)set.file_len);
    measure_line("plain run: ns a byte", plain_once, NULL, (double)set.file_len);
    turn_to_version_2();
    measure_line("run, fair, version 2: ns a step", run_fair, run_empty, (double)set.fair_len);
    printf("fair schedule of %zu steps, random one of %zu, file of %zu bytes\n", set.fair_len,
           set.random_len, set.file_len);
}

/* ---- growth ------------------------------------------------------------ */

struct size {
    uint32_t tasks;
    uint32_t workers;
};

static const struct size sizes[] = {
    {10, 8}, {20, 8}, {50, 8}, {100, 8}, {200, 8}, {200, 1}, {200, 2}, {200, 4},
};

enum { SIZES = sizeof sizes / sizeof sizes[0] };

static double fair_steps(void)
{
    return (double)set.fair_len;
}

static double random_steps(void)
{
    return (double)set.random_len;
}

static double file_bytes(void)
{
    return (double)set.file_len;
}

static void time_growth(const char *what, job *once, job *less, double (*units)(void))
{
    print_head(what);
    for (uint32_t i = 0; i < SIZES; i++) {
        char line[64];
        make_setting(sizes[i].tasks, sizes[i].workers, MOST_CELLS);
        snprintf(line, sizeof line, "%4" PRIu32 " tasks, %" PRIu32 " workers", sizes[i].tasks,
                 sizes[i].workers);
        measure_line(line, once, less, units());
    }
}

/* ---- stack ------------------------------------------------------------- */

enum { STACK = 1 << 20, PAINTED = 1 << 16, CASES_FOR_STACK = 400, PAINT = 0xc5 };

static struct test_case current;

/* The row that is checked by itself; where there is none, the case's call is
   made. */
static const uint8_t *current_row;

static uint8_t lent_output[ROOM_OUTPUT];

/* The call of the current case. */
static void call_case(const struct calls *calls)
{
    static uint32_t answer[MOST_ANSWER_WORDS];
    uint32_t *lent_cells = (uint32_t *)(void *)lent_output;
    switch (current.call) {
    case CALL_CHECK:
        calls->check(current.input, current.input_len, (void *)answer);
        break;
    case CALL_READ:
        calls->read(current.input, current.input_len, lent_output, current.output_len,
                    (void *)answer);
        break;
    case CALL_WRITE:
        calls->write(current.input, current.input_len, current.version, current.workers,
                     current.cells, lent_output, current.output_len, (void *)answer);
        break;
    case CALL_PLAIN:
        calls->plain(current.input, current.input_len, lent_cells, current.output_len / 4,
                     (void *)answer);
        break;
    default:
        calls->run(current.input, current.input_len, lent_cells, current.output_len / 4,
                   current.schedule, current.schedule_len, (void *)answer);
        break;
    }
}

static void call_current(enum side side)
{
    if (current_row != NULL)
        row_checks[side](current_row, current.version, current.workers, current.cells);
    else
        call_case(&tables[side]);
}

struct probe {
    enum side side;
    size_t deepest;
};

/* Paints the stack below this function, makes the call, and looks how far
   down the paint is gone. Nothing else is called between, and nothing below
   the stack pointer is in use. All this is x86-64, as the library is. */
__attribute__((noinline)) static void *probe_call(void *argument)
{
    struct probe *probe = argument;
    volatile uint8_t *top;
    __asm__ volatile("mov %%rsp, %0" : "=r"(top));
    volatile uint8_t *bottom = top - PAINTED;

    for (volatile uint8_t *at = bottom; at < top; at++)
        *at = PAINT;
    call_current(probe->side);
    volatile uint8_t *at = bottom;
    while (at < top && *at == PAINT)
        at++;
    probe->deepest = (size_t)(top - at);
    return NULL;
}

static size_t deepest_of(enum side side, uint8_t *stack)
{
    struct probe probe = {side, 0};
    pthread_attr_t attributes;
    pthread_t thread;

    memcpy(lent_output, current.output, current.output_len);
    call_current(side); /* once before, so that nothing is resolved under the probe */
    memcpy(lent_output, current.output, current.output_len);
    pthread_attr_init(&attributes);
    pthread_attr_setstack(&attributes, stack, STACK);
    if (pthread_create(&thread, &attributes, probe_call, &probe) != 0) {
        fprintf(stderr, "bench: no thread\n");
        exit(2);
    }
    pthread_join(thread, NULL);
    pthread_attr_destroy(&attributes);
    return probe.deepest;
}

/* The current case: the largest flow, under a call. */
static void largest_case(uint32_t call)
{
    current.call = call;
    memset(current.output, 0, ROOM_OUTPUT);
    current.input_len = set.file_len;
    memcpy(current.input, set.file, set.file_len);
    if (call == CALL_WRITE) {
        current.input_len = (size_t)set.flow.tasks * ROW_BYTES;
        memcpy(current.input, set.flow.rows, current.input_len);
    }
    current.version = set.flow.version;
    current.workers = set.flow.workers;
    current.cells = set.flow.cells;
    bool runs = call == CALL_PLAIN || call == CALL_RUN;
    current.output_len = runs ? 4 * (size_t)set.flow.cells : MOST_FILE;
    current.schedule_len = set.fair_len;
    memcpy(current.schedule, set.fair, set.fair_len);
}

/* Measures the current call, and keeps the deepest so far. The eight bytes of
   the return address are counted. */
static void measure_current(uint8_t *stack, size_t deepest[2])
{
    size_t base = deepest_of(NOTHING, stack) - 8;
    for (enum side side = LIBRARY; side <= REFERENCE; side++) {
        size_t found = deepest_of(side, stack) - base;
        if (found > deepest[side])
            deepest[side] = found;
    }
}

/* A call: the deepest over the largest flow and some hundred cases of all
   kinds. */
static void measure_call(uint32_t call, uint8_t *stack, size_t deepest[2])
{
    largest_case(call);
    measure_current(stack, deepest);
    for (uint32_t i = 1; i <= CASES_FOR_STACK; i++) {
        make_case(9450, i, ALL_SIZES, &current);
        if (current.call == call)
            measure_current(stack, deepest);
    }
}

/* Two row checks that differ are not worth measuring. */
static void hold_rows_together(void)
{
    uint32_t library = row_alone(current_row, current.version, current.workers, current.cells);
    uint32_t reference = ref_row(current_row, current.version, current.workers, current.cells);
    if (library != reference) {
        fprintf(stderr, "bench: a row is %" PRIu32 " to the library, %" PRIu32
                " to the reference\n", library, reference);
        exit(1);
    }
}

/* The rows of the current case of the writer, as a reader of each version has
   them. */
static void measure_rows(uint8_t *stack, size_t deepest[2])
{
    for (size_t at = 0; at + ROW_BYTES <= current.input_len; at += ROW_BYTES) {
        current_row = current.input + at;
        for (uint32_t version = 1; version <= MOST_VERSION; version++) {
            current.version = version;
            hold_rows_together();
            measure_current(stack, deepest);
        }
    }
    current_row = NULL;
}

/* The row check by itself: the deepest over the rows that the writer is given
   in the same cases. */
static void measure_row_check(uint8_t *stack, size_t deepest[2])
{
    largest_case(CALL_WRITE);
    measure_rows(stack, deepest);
    for (uint32_t i = 1; i <= CASES_FOR_STACK; i++) {
        make_case(9450, i, ALL_SIZES, &current);
        if (current.call == CALL_WRITE)
            measure_rows(stack, deepest);
    }
}

static void stack_line(const char *what, const size_t deepest[2])
{
    printf("%-34s %10zu %10zu %8.2f\n", what, deepest[LIBRARY], deepest[REFERENCE],
           (double)deepest[LIBRARY] / (double)deepest[REFERENCE]);
}

static void stack_table(void)
{
    uint8_t *stack = mmap(NULL, STACK, PROT_READ | PROT_WRITE, MAP_PRIVATE | MAP_ANONYMOUS, -1, 0);
    if (stack == MAP_FAILED) {
        perror("bench: stack");
        exit(2);
    }
    make_setting(MOST_TASKS, MOST_WORKERS, MOST_CELLS);
    print_head("deepest stack, bytes");
    for (uint32_t call = CALL_CHECK; call <= CALL_RUN; call++) {
        size_t deepest[2] = {0, 0};
        measure_call(call, stack, deepest);
        stack_line(call_name(call), deepest);
    }
    size_t deepest[2] = {0, 0};
    measure_row_check(stack, deepest);
    stack_line("row check by itself", deepest);
    munmap(stack, STACK);
}

/* ---- the program ------------------------------------------------------- */

int main(int count, char **arguments)
{
    struct words words = words_of("bench", count, arguments);
    samples = (uint32_t)next_number(&words, "SAMPLES", 1, MOST_SAMPLES, samples);
    no_more_words(&words);

    time_largest();
    time_growth("run, fair schedule: ns a step", run_fair, run_empty, fair_steps);
    time_growth("run, random schedule: ns a step", run_random, run_empty, random_steps);
    time_growth("check: ns a byte", check_once, NULL, file_bytes);
    time_growth("read: ns a byte", read_once, NULL, file_bytes);
    time_growth("write: ns a byte", write_once, NULL, file_bytes);
    stack_table();
    return 0;
}
