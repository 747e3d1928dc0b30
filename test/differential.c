/*
 * The library against the reference: every word of the answer and every lent
 * byte, over cases made from a seed.
 *
 *     differential [CASES [SEED [FIRST]]]
 *
 * Ends at the first difference, with the seed and the number of the case.
 * FIRST is the number of the first case, to come straight to one.
 *
 * Else it shows what was met: how often each number; of each version, how many
 * files were accepted and how many were written; how often 3 was given for a
 * version; how often 18 was given by whom, and how many files with operation 6
 * were accepted; for each reason of a held step, in how many runs that were not
 * refused a step was held for it (for 0, in how many none was held), and how many
 * workers of theirs have it as their latest; and how many runs were under
 * stretches, in each of which every worker is named, and how many of those had to
 * finish.
 */
#define _DEFAULT_SOURCE

#include "lent.h"
#include "named_cases.h"
#include "stretches.h"
#include "words.h"

#include <inttypes.h>
#include <signal.h>
#include <stdio.h>
#include <string.h>
#include <sys/mman.h>
#include <time.h>
#include <unistd.h>

enum { REASONS = 4 };

static const struct calls library = LIBRARY_CALLS;
static const struct calls reference = REFERENCE_CALLS;

static struct memory library_memory;
static struct memory reference_memory;
static struct test_case current;

static uint64_t seed = 20220127;
static uint64_t case_number;
static bool named; /* the case is a named one, and not from the seed */
static const char *volatile inside = "no call";

/* ---- what is met ------------------------------------------------------- */

/* Why a version was refused with 3. */
enum { NEITHER, OTHER_IN_BLOCK_1, OTHER_LATER, VERSION_FAULTS };

struct tally {
    uint64_t met[CALL_RUN + 1][MOST_NUMBER + 1];
    uint64_t accepted[MOST_VERSION + 1]; /* files, by their version */
    uint64_t written[MOST_VERSION + 1];
    uint64_t version_faults[VERSION_FAULTS];
    uint64_t larger[LARGERS];
    uint64_t known;
    uint64_t finished;
    uint64_t steps;
    uint64_t runs[REASONS];   /* with a step held for it; 0: with none held */
    uint64_t latest[REASONS]; /* of a worker that the flow has */
    uint64_t stretches[STRETCH_KINDS];
};

static struct tally tally;

/* A run that was not refused. */
static void count_run(const sflw_run_answer *run)
{
    tally.finished += run->finished;
    tally.steps += current.schedule_len;
    tally.runs[SFLW_NEVER_HELD] += run->held == 0;
    tally.runs[SFLW_PAST_LAST] += run->past_last > 0;
    tally.runs[SFLW_WRITE_DIFFERS] += run->write_differs > 0;
    tally.runs[SFLW_READS_DIFFER] += run->reads_differ > 0;
    for (uint32_t i = 0; i < current.input[12]; i++)
        tally.latest[run->latest[i].reason]++;
    tally.stretches[current.stretches.kind]++;
}

/* A file that was refused with 3 at a block: for its version, if that is wrong
   and the letters are right. */
static void count_version_fault(uint32_t place)
{
    const uint8_t *block = current.input + BLOCK_BYTES * place;

    if (memcmp(block, "SFLW", 4) != 0)
        return;
    if (block[4] < 1 || block[4] > MOST_VERSION)
        tally.version_faults[NEITHER]++;
    else if (block[4] != current.input[4])
        tally.version_faults[place == 1 ? OTHER_IN_BLOCK_1 : OTHER_LATER]++;
}

static void count_version(void)
{
    if (reference_memory.returned == 3)
        count_version_fault(answer_at(&reference_memory, 1));
    if (reference_memory.returned != 0)
        return;
    if (current.call == CALL_WRITE)
        tally.written[current.version]++;
    else
        tally.accepted[current.input[4]]++;
}

static void count_case(void)
{
    tally.met[current.call][reference_memory.returned]++;
    tally.known += current.known;
    count_version();
    tally.larger[larger_met(&reference_memory, &current)]++;
    if (current.call == CALL_RUN && reference_memory.returned == 0) {
        sflw_run_answer run = run_answer(&reference_memory);
        count_run(&run);
    }
}

static uint64_t met_in_all(uint32_t number)
{
    uint64_t sum = 0;
    for (uint32_t call = CALL_CHECK; call <= CALL_RUN; call++)
        sum += tally.met[call][number];
    return sum;
}

/* Those of fewer stretches are the ones that need not finish. */
static void print_stretches(void)
{
    uint64_t finish = tally.stretches[OWN_STRETCHES] + tally.stretches[TOTAL_STRETCHES] +
                      tally.stretches[AGAIN_STRETCHES];
    printf("%" PRIu64 " runs under stretches, %" PRIu64 " of them long enough to finish\n",
           finish + tally.stretches[FEWER_STRETCHES], finish);
}

static void print_numbers(void)
{
    printf("%6s", "number");
    for (uint32_t call = CALL_CHECK; call <= CALL_RUN; call++)
        printf(" %8s", call_name(call));
    printf(" %9s\n", "all");
    for (uint32_t i = 0; i < NUMBERS; i++) {
        printf("%6u", numbers[i]);
        for (uint32_t call = CALL_CHECK; call <= CALL_RUN; call++)
            printf(" %8" PRIu64, tally.met[call][numbers[i]]);
        printf(" %9" PRIu64 "\n", met_in_all(numbers[i]));
    }
}

static void print_versions(void)
{
    printf("%7s %9s %8s\n", "version", "accepted", "written");
    for (uint32_t version = 1; version <= MOST_VERSION; version++)
        printf("%7" PRIu32 " %9" PRIu64 " %8" PRIu64 "\n", version, tally.accepted[version],
               tally.written[version]);
    printf("3 for a version: %" PRIu64 " neither 1 nor 2; not block 0's: %" PRIu64
           " in block 1, %" PRIu64 " in a later one\n", tally.version_faults[NEITHER],
           tally.version_faults[OTHER_IN_BLOCK_1], tally.version_faults[OTHER_LATER]);
}

static void print_larger(void)
{
    printf("18: %" PRIu64 " by readers of version 2; by the writer %" PRIu64 " in version 1, %"
           PRIu64 " in version 2; operation 6 in %" PRIu64 " accepted files of version 1\n",
           tally.larger[READER_REFUSED], tally.larger[WRITER_1_REFUSED],
           tally.larger[WRITER_2_REFUSED], tally.larger[FILE_ACCEPTED]);
}

static void print_tally(void)
{
    print_numbers();
    print_versions();
    print_larger();
    printf("%6s %8s %8s\n", "reason", "runs", "latest");
    for (uint32_t reason = 0; reason < REASONS; reason++)
        printf("%6" PRIu32 " %8" PRIu64 " %8" PRIu64 "\n", reason, tally.runs[reason],
               tally.latest[reason]);
    print_stretches();
}

static bool enough_of(const char *what, uint32_t which, uint64_t met, uint64_t wanted)
{
    if (met < wanted)
        printf("%s %" PRIu32 " was met too seldom\n", what, which);
    return met >= wanted;
}

/* What may be rare at least 20 times in 100,000 cases: every number, every fault
   of a version, and all that is done with operation 6. */
static bool enough_rare(uint64_t cases)
{
    uint64_t wanted = cases / 5000;
    bool enough = true;

    for (uint32_t i = 0; i < NUMBERS; i++)
        enough &= enough_of("number", numbers[i], met_in_all(numbers[i]), wanted);
    for (uint32_t fault = 0; fault < VERSION_FAULTS; fault++)
        enough &= enough_of("fault of a version", fault, tally.version_faults[fault], wanted);
    for (uint32_t larger = READER_REFUSED; larger < LARGERS; larger++)
        enough &= enough_of("way of operation 6", larger, tally.larger[larger], wanted);
    return enough;
}

/* Besides, every version in at least one of four cases that are not refused. Every
   reason at least once in a hundred runs that are not refused, and as often as a
   latest one; so too every kind of stretches. */
static bool enough_met(uint64_t cases)
{
    uint64_t runs = tally.met[CALL_RUN][0];
    bool enough = enough_rare(cases);

    for (uint32_t version = 1; version <= MOST_VERSION; version++) {
        uint64_t met = tally.accepted[version] + tally.written[version];
        enough &= enough_of("version", version, met, met_in_all(0) / 4);
    }
    for (uint32_t reason = 0; reason < REASONS; reason++) {
        enough &= enough_of("reason", reason, tally.runs[reason], runs / 100);
        enough &= enough_of("latest reason", reason, tally.latest[reason], runs / 100);
    }
    for (uint32_t kind = NO_STRETCHES; kind < STRETCH_KINDS; kind++)
        enough &= enough_of("kind of stretches", kind, tally.stretches[kind], runs / 100);
    return enough;
}

/* ---- a difference ------------------------------------------------------ */

static void print_answer(const struct calls *calls, const struct memory *memory)
{
    printf("%-9s: returned %" PRIu32 ";", calls->name, memory->returned);
    for (uint32_t i = 0; i < answer_words(current.call); i++)
        printf(" %s %" PRIu32, answer_word(current.call, i), answer_at(memory, i));
    printf("\n");
}

static void print_which(void)
{
    if (named)
        printf("a named case: ");
    else
        printf("seed %" PRIu64 " case %" PRIu64 ": ", seed, case_number);
    printf("%s, %s: ", call_name(current.call), current.kind);
}

static void print_case(const char *what)
{
    print_which();
    printf("%s\n", what);
    printf("lengths: input %zu output %zu schedule %zu; version %" PRIu32 " workers %" PRIu32
           " cells %" PRIu32 "\n", current.input_len, current.output_len, current.schedule_len,
           current.version, current.workers, current.cells);
    if (current.known)
        printf("made so that: number %" PRIu32 " place %" PRIu32 "\n", current.number,
               current.place);
    if (current.call == CALL_RUN && current.stretches.kind != NO_STRETCHES)
        printf("%" PRIu32 " whole stretches; tasks %" PRIu32 " workers %" PRIu32 " own %" PRIu32
               " total %" PRIu32 "\n", current.stretches.whole, current.stretches.tasks,
               current.stretches.workers, current.stretches.own, current.stretches.total);
    print_answer(&library, &library_memory);
    print_answer(&reference, &reference_memory);
}

static void print_first_byte(void)
{
    for (size_t i = 0; i < current.output_len; i++) {
        if (library_memory.output.at[i] != reference_memory.output.at[i]) {
            printf("lent byte %zu: library %u, reference %u, before the call %u\n", i,
                   library_memory.output.at[i], reference_memory.output.at[i],
                   current.output[i]);
            return;
        }
    }
}

/* A call that ended the program, as by a byte beyond what was lent. */
static void ended_by_signal(int number)
{
    print_which();
    printf("the %s was ended by signal %d\n", inside, number);
    fflush(stdout);
    _exit(1);
}

static void catch_signals(void)
{
    static const int signals[] = {SIGSEGV, SIGBUS, SIGILL, SIGFPE, SIGABRT};
    for (size_t i = 0; i < sizeof signals / sizeof signals[0]; i++)
        signal(signals[i], ended_by_signal);
}

/* ---- one case ---------------------------------------------------------- */

static const char *difference(void)
{
    if (library_memory.returned != reference_memory.returned)
        return "the numbers returned differ";
    if (memcmp(library_memory.answer.at, reference_memory.answer.at,
               4 * answer_words(current.call)) != 0)
        return "the answers differ";
    if (memcmp(library_memory.output.at, reference_memory.output.at, current.output_len) != 0)
        return "the lent memory differs";
    return NULL;
}

/* The reference itself: a case made so that its answer is known has it. */
static bool answer_as_made(void)
{
    return !current.known || (answer_at(&reference_memory, 0) == current.number &&
                              answer_at(&reference_memory, 1) == current.place);
}

/* A finished run made the flow's total of advancing steps, and its cells are
   those of the plain run. */
static bool finished_as_plain(void)
{
    uint32_t cells[MOST_CELLS];
    sflw_check_answer checked;
    sflw_plain_answer plain;

    if (current.call != CALL_RUN || reference_memory.returned != 0)
        return true;
    sflw_run_answer run = run_answer(&reference_memory);
    if (run.finished == 0)
        return true;
    memcpy(cells, current.output, current.output_len);
    ref_check(current.input, current.input_len, &checked);
    ref_plain(current.input, current.input_len, cells, current.output_len / 4, &plain);
    return run.advanced == checked.total && run.done == checked.tasks &&
           memcmp(cells, reference_memory.output.at, current.output_len) == 0;
}

/* Rows that were read make the same file again, in the version that was read; but
   operation 6 is not written, so that the first task that has it is refused. */
static bool written_as_read(void)
{
    static uint8_t file[MOST_FILE];
    sflw_write_answer written;

    if (current.call != CALL_READ || reference_memory.returned != 0)
        return true;
    uint32_t larger = larger_in_file(current.input, answer_at(&reference_memory, 3));
    ref_write(reference_memory.output.at, answer_at(&reference_memory, 2),
              answer_at(&reference_memory, VERSION_WORD), answer_at(&reference_memory, 4),
              answer_at(&reference_memory, 5), file, MOST_FILE, &written);
    if (larger != 0)
        return written.number == 18 && written.place == larger && written.bytes == 0;
    return written.number == 0 && written.bytes == current.input_len &&
           memcmp(file, current.input, current.input_len) == 0;
}

/* False, and all is said, if the case shows anything wrong. */
static bool case_passes(void)
{
    enum where where = case_number % 2 == 0   ? IN_THE_MIDDLE
                       : case_number % 8 == 1 ? AT_THE_START
                                              : AT_THE_END;
    size_t shift = case_number / 2 % 16;
    const char *wrong;

    inside = library.name;
    call_case(&library, &current, where, shift, &library_memory);
    inside = reference.name;
    call_case(&reference, &current, where, shift, &reference_memory);
    inside = "no call";

    if ((wrong = misdeed(&library_memory, &current)) != NULL) {
        print_case(wrong);
        printf("it was the library\n");
        return false;
    }
    if ((wrong = misdeed(&reference_memory, &current)) != NULL) {
        print_case(wrong);
        printf("it was the reference\n");
        return false;
    }
    if ((wrong = difference()) != NULL) {
        print_case(wrong);
        print_first_byte();
        return false;
    }
    if (!answer_as_made() || !finished_as_plain() || !written_as_read()) {
        print_case("the reference is not as the rules say");
        return false;
    }
    return true;
}

/* In each of the three ways to lend. */
static bool named_case_passes(void)
{
    bool pass = true;
    for (case_number = 0; case_number < 4 && pass; case_number++)
        pass = case_passes();
    return pass;
}

/* The named cases, and the flows that take longest. */
static bool named_cases_pass(void)
{
    bool pass = true;
    named = true;
    for (uint32_t i = 0; i < named_case_count() && pass; i++) {
        make_named_case(named_case(i), &current);
        pass = named_case_passes();
    }
    for (uint32_t i = 0; i < LONGEST_CASES && pass; i++) {
        struct longest longest = longest_at(i);
        make_longest_case(&longest, &current);
        pass = named_case_passes();
    }
    named = false;
    return pass;
}

/* ---- lengths of more than 32 bits -------------------------------------- */

/* Room that is never touched but at its start: 2^32 + 64 cells. */
static const size_t LONG = ((size_t)1 << 32) + 64;

static bool long_answer(const char *what, uint32_t number, uint32_t wanted)
{
    if (number != wanted)
        printf("%s of over 2^32: number %" PRIu32 ", not %" PRIu32 "\n", what, number, wanted);
    return number == wanted;
}

static bool long_lengths_pass(const struct calls *calls, uint8_t *room)
{
    size_t over = (size_t)1 << 32;
    struct sample flow;
    uint8_t file[BLOCK_BYTES];
    uint8_t out[BLOCK_BYTES];
    uint32_t cells[3] = {0, 0, 5};
    uint8_t names[] = {0, 1};
    sflw_check_answer checked;
    sflw_read_answer read;
    sflw_write_answer written;
    sflw_plain_answer plain;
    sflw_run_answer run;
    bool pass = true;

    make_flow_a(&flow);
    size_t length = make_file(&flow, file);

    memcpy(room, file, length);
    pass &= long_answer("file", calls->check(room, over + length, &checked), 1);
    memset(room, 0, BLOCK_BYTES);
    pass &= long_answer("rows lent", calls->read(file, length, room, over + 1, &read), 0);
    pass &= memcmp(room, flow.rows, 3 * ROW_BYTES) == 0;
    memcpy(room, flow.rows, 3 * ROW_BYTES);
    pass &= long_answer("rows", calls->write(room, over + 144, 1, 2, 3, out, 512, &written), 15);
    pass &= long_answer("out", calls->write(flow.rows, 144, 1, 2, 3, room, over + 1, &written), 0);
    pass &= memcmp(room, file, length) == 0;
    memset(room, 0, BLOCK_BYTES);
    uint32_t *many = (uint32_t *)(void *)room;
    pass &= long_answer("cells", calls->plain(file, length, many, over + 3, &plain), 12);
    pass &= long_answer("cells", calls->run(file, length, many, over + 3, names, 2, &run), 12);
    pass &= long_answer("schedule", calls->run(file, length, cells, 3, room, over + 2, &run), 13);
    return pass;
}

static bool test_long_lengths(void)
{
    uint8_t *room = mmap(NULL, LONG * 4, PROT_READ | PROT_WRITE,
                         MAP_PRIVATE | MAP_ANONYMOUS | MAP_NORESERVE, -1, 0);
    if (room == MAP_FAILED) {
        printf("lengths over 2^32: not tried, no room\n");
        return true;
    }
    bool pass = long_lengths_pass(&library, room) && long_lengths_pass(&reference, room);
    munmap(room, LONG * 4);
    return pass;
}

/* ---- the test ---------------------------------------------------------- */

static double now(void)
{
    struct timespec time;
    clock_gettime(CLOCK_MONOTONIC, &time);
    return (double)time.tv_sec + (double)time.tv_nsec * 1e-9;
}

int main(int count, char **arguments)
{
    struct words words = words_of("differential", count, arguments);
    uint64_t cases = next_number(&words, "CASES", 1, UINT32_MAX, 100000);
    seed = next_number(&words, "SEED", 0, UINT64_MAX, seed);
    uint64_t first = next_number(&words, "FIRST", 0, UINT64_MAX - cases, 0);
    no_more_words(&words);

    open_memory(&library_memory);
    open_memory(&reference_memory);
    catch_signals();
    if (!named_cases_pass())
        return 1;
    double start = now();
    for (uint64_t i = 0; i < cases; i++) {
        case_number = first + i;
        make_case(seed, case_number, ALL_SIZES, &current);
        if (!case_passes())
            return 1;
        count_case();
    }
    double seconds = now() - start;

    current.kind = "lengths over 2^32";
    current.call = 0;
    inside = "library or reference";
    bool pass = test_long_lengths();
    print_tally();
    printf("seed %" PRIu64 ": %" PRIu64 " cases, %.1f s, %.0f a second; %" PRIu64
           " with an answer known beforehand, %" PRIu64 " runs finished, %" PRIu64 " steps\n",
           seed, cases, seconds, (double)cases / seconds, tally.known, tally.finished,
           tally.steps);
    pass &= enough_met(cases);
    printf(pass ? "no difference\n" : "failed\n");
    return pass ? 0 : 1;
}
