#define _DEFAULT_SOURCE

#include "lent.h"
#include "stretches.h"

#include <stdio.h>
#include <stdlib.h>
#include <string.h>
#include <sys/mman.h>

enum { PAGE = 4096, GUARD = 64 };

_Static_assert(sizeof(sflw_run_answer) == 4 * MOST_ANSWER_WORDS, "the longest answer is a run's");
_Static_assert(offsetof(sflw_check_answer, version) == 4 * VERSION_WORD &&
               offsetof(sflw_read_answer, version) == 4 * VERSION_WORD, "where the version is");

static uint8_t guard_byte(size_t index)
{
    return (uint8_t)(0xa5 ^ index * 29);
}

/* Room between two pages that may not be touched. */
static void open_lent(struct lent *lent, size_t room)
{
    size_t whole = (room + 3 * GUARD + PAGE - 1) / PAGE * PAGE;
    uint8_t *pages = mmap(NULL, whole + 2 * PAGE, PROT_READ | PROT_WRITE,
                          MAP_PRIVATE | MAP_ANONYMOUS, -1, 0);
    if (pages == MAP_FAILED || mprotect(pages, PAGE, PROT_NONE) != 0 ||
        mprotect(pages + PAGE + whole, PAGE, PROT_NONE) != 0) {
        perror("memory for the tests");
        exit(2);
    }
    lent->first = pages + PAGE;
    lent->room = whole;
}

void open_memory(struct memory *memory)
{
    open_lent(&memory->input, ROOM_INPUT);
    open_lent(&memory->output, ROOM_OUTPUT);
    open_lent(&memory->schedule, ROOM_SCHEDULE);
    open_lent(&memory->answer, 4 * MOST_ANSWER_WORDS);
}

/* The guard before the lent part is as long as there is room for, and so is
   the one after it, up to GUARD bytes. */
static size_t guard_before(const struct lent *lent)
{
    size_t before = (size_t)(lent->at - lent->first);
    return before < GUARD ? before : GUARD;
}

static size_t guard_after(const struct lent *lent)
{
    size_t after = (size_t)(lent->first + lent->room - lent->at) - lent->length;
    return after < GUARD ? after : GUARD;
}

static void lend(struct lent *lent, const void *bytes, size_t length,
                 enum where where, size_t shift)
{
    lent->length = length;
    if (where == AT_THE_END)
        lent->at = lent->first + lent->room - length;
    else
        lent->at = lent->first + (where == AT_THE_START ? 0 : GUARD + shift);
    if (bytes != NULL)
        memcpy(lent->at, bytes, length);
    else
        memset(lent->at, 0xee, length);

    size_t before = guard_before(lent);
    size_t after = guard_after(lent);
    for (size_t i = 0; i < before; i++)
        lent->at[i - before] = guard_byte(i);
    for (size_t i = 0; i < after; i++)
        lent->at[length + i] = guard_byte(i);
}

static bool guards_hold(const struct lent *lent)
{
    size_t before = guard_before(lent);
    size_t after = guard_after(lent);
    for (size_t i = 0; i < before; i++)
        if (lent->at[i - before] != guard_byte(i))
            return false;
    for (size_t i = 0; i < after; i++)
        if (lent->at[lent->length + i] != guard_byte(i))
            return false;
    return true;
}

uint32_t answer_at(const struct memory *memory, uint32_t index)
{
    uint32_t word;
    memcpy(&word, memory->answer.at + 4 * index, 4);
    return word;
}

sflw_run_answer run_answer(const struct memory *memory)
{
    sflw_run_answer answer;
    memcpy(&answer, memory->answer.at, sizeof answer);
    return answer;
}

void call_case(const struct calls *calls, const struct test_case *given,
               enum where where, size_t shift, struct memory *memory)
{
    /* cells and answers lie at multiples of four */
    bool cells = given->call == CALL_PLAIN || given->call == CALL_RUN;
    lend(&memory->input, given->input, given->input_len, where, shift);
    lend(&memory->output, given->output, given->output_len, where, cells ? shift / 4 * 4 : shift);
    lend(&memory->schedule, given->schedule, given->schedule_len, where, shift);
    lend(&memory->answer, NULL, 4 * answer_words(given->call), where, shift / 4 * 4);

    const uint8_t *input = memory->input.at;
    uint8_t *output = memory->output.at;
    void *answer = memory->answer.at;
    switch (given->call) {
    case CALL_CHECK:
        memory->returned = calls->check(input, given->input_len, answer);
        break;
    case CALL_READ:
        memory->returned = calls->read(input, given->input_len, output, given->output_len, answer);
        break;
    case CALL_WRITE:
        memory->returned = calls->write(input, given->input_len, given->version, given->workers,
                                        given->cells, output, given->output_len, answer);
        break;
    case CALL_PLAIN:
        memory->returned = calls->plain(input, given->input_len, (uint32_t *)(void *)output,
                                        given->output_len / 4, answer);
        break;
    default:
        memory->returned = calls->run(input, given->input_len, (uint32_t *)(void *)output,
                                      given->output_len / 4, memory->schedule.at,
                                      given->schedule_len, answer);
        break;
    }
}

/* A refusal "reports zero counts", no version, and of no worker a held step. */
static bool counts_are_zero(const struct memory *memory, uint32_t call)
{
    for (uint32_t i = 2; i < answer_words(call); i++)
        if (answer_at(memory, i) != 0)
            return false;
    return true;
}

static bool is_named(uint32_t worker, const struct test_case *given)
{
    return memchr(given->schedule, (int)worker, given->schedule_len) != NULL;
}

/* Whether a worker's latest held step can be one of a run with these counts:
   some step was held for its reason, and it names a cell of the flow's with
   the reasons 2 and 3, none with the others. */
static bool latest_stands(const sflw_run_answer *run, sflw_latest_held latest, uint32_t cells)
{
    switch (latest.reason) {
    case SFLW_NEVER_HELD:
        return latest.cell == 0;
    case SFLW_PAST_LAST:
        return run->past_last > 0 && latest.cell == 0;
    case SFLW_WRITE_DIFFERS:
        return run->write_differs > 0 && latest.cell < cells;
    case SFLW_READS_DIFFER:
        return run->reads_differ > 0 && latest.cell < cells;
    default:
        return false;
    }
}

/* What no run answers that is not refused, or null. Bytes 12 and 13 of its
   file are the workers and the cells. */
static const char *run_misdeed(const struct memory *memory, const struct test_case *given)
{
    sflw_run_answer run = run_answer(memory);
    bool some = false;

    if ((uint64_t)run.past_last + run.write_differs + run.reads_differ != run.held)
        return "answered counts of the three reasons that do not add up to held";
    if ((uint64_t)run.advanced + run.held != given->schedule_len)
        return "answered another number of steps than the schedule has";
    for (uint32_t i = 0; i < MOST_WORKERS; i++) {
        sflw_latest_held latest = run.latest[i];
        bool none = latest.reason == SFLW_NEVER_HELD && latest.cell == 0;
        if (i >= given->input[12] && !none)
            return "answered a held step of a worker that the flow does not have";
        if (!is_named(i, given) && !none)
            return "answered a held step of a worker that is never named";
        if (!latest_stands(&run, latest, given->input[13]))
            return "answered a latest held step that can be none of this run";
        some |= latest.reason != SFLW_NEVER_HELD;
    }
    if (some != (run.held > 0))
        return "answered held steps that no worker had";
    return stretches_misdeed(given, &run);
}

/* The first task with operation 6 in a file or in rows of which the sizes are
   right; 0 if none has it. Byte 10 of a file is the number of its tasks. */
static uint32_t larger_in(const struct test_case *given)
{
    if (given->call == CALL_WRITE)
        return larger_in_rows(given->input, (uint32_t)(given->input_len / ROW_BYTES));
    return larger_in_file(given->input, given->input[10]);
}

/* Whether operation 6 is refused: "in readers for version 2 only, in the writer
   for both versions" (02, Q-9). */
static bool larger_retired(const struct test_case *given)
{
    return given->call == CALL_WRITE || given->input[4] == 2;
}

enum larger larger_met(const struct memory *memory, const struct test_case *given)
{
    if (memory->returned == 18 && given->call == CALL_WRITE)
        return given->version == 1 ? WRITER_1_REFUSED : WRITER_2_REFUSED;
    if (memory->returned == 18)
        return READER_REFUSED;
    if (memory->returned == 0 && given->call != CALL_WRITE && larger_in(given) != 0)
        return FILE_ACCEPTED;
    return NO_LARGER;
}

/* What no call does about operation 6, or null. */
static const char *larger_misdeed(const struct memory *memory, const struct test_case *given)
{
    if (memory->returned == 18 && !larger_retired(given))
        return "answered 18 for a file that is not of version 2";
    if (memory->returned == 18 && larger_in(given) != answer_at(memory, 1))
        return "answered 18 elsewhere than at the first task with operation 6";
    if (memory->returned == 0 && larger_retired(given) && larger_in(given) != 0)
        return "took operation 6 where it is retired";
    return NULL;
}

/* What no write does that is not refused, or null. */
static const char *write_misdeed(const struct memory *memory, const struct test_case *given)
{
    uint32_t written = answer_at(memory, 2);

    if (written > given->output_len)
        return "answered more bytes than were lent";
    if (!all_of_version(memory->output.at, written, given->version))
        return "wrote another version than it was told";
    return NULL;
}

/* What no call does about the version of a file that is not refused, or null. */
static const char *version_misdeed(const struct memory *memory, const struct test_case *given)
{
    uint32_t version = given->input[4];
    bool says = given->call == CALL_CHECK || given->call == CALL_READ;

    if (version < 1 || version > MOST_VERSION)
        return "took a file of a version that is neither 1 nor 2";
    if (!all_of_version(given->input, given->input_len, version))
        return "took a file of which a block has another version than block 0";
    if (says && answer_at(memory, VERSION_WORD) != version)
        return "answered another version than the file has";
    return NULL;
}

/* What no call answers or does that is not refused, or null. */
static const char *success_misdeed(const struct memory *memory, const struct test_case *given)
{
    if (given->call == CALL_WRITE)
        return write_misdeed(memory, given);
    const char *wrong = version_misdeed(memory, given);
    return wrong == NULL && given->call == CALL_RUN ? run_misdeed(memory, given) : wrong;
}

const char *misdeed(const struct memory *memory, const struct test_case *given)
{
    if (!guards_hold(&memory->input) || !guards_hold(&memory->output) ||
        !guards_hold(&memory->schedule) || !guards_hold(&memory->answer))
        return "wrote outside the memory that was lent";
    if (memcmp(memory->input.at, given->input, given->input_len) != 0)
        return "changed its input";
    if (memcmp(memory->schedule.at, given->schedule, given->schedule_len) != 0)
        return "changed the schedule";
    if (memory->returned != answer_at(memory, 0))
        return "returned another number than the one it answered";
    if (!is_number(memory->returned))
        return "answered a number that no call has";
    if (memory->returned != 0 &&
        memcmp(memory->output.at, given->output, given->output_len) != 0)
        return "refused, and changed lent memory all the same";
    if (memory->returned != 0 && !counts_are_zero(memory, given->call))
        return "refused, and answered a count, a version or a held step all the same";
    const char *wrong = larger_misdeed(memory, given);
    return wrong == NULL && memory->returned == 0 ? success_misdeed(memory, given) : wrong;
}
