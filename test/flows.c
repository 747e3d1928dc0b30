#include "flows.h"

#include <string.h>

enum codes codes_of(uint32_t version)
{
    return version == 1 ? SIX_CODES : FIVE_CODES;
}

/* ---- valid flows ------------------------------------------------------- */

static void put_operation(uint8_t *row, uint32_t index, uint32_t code,
                          uint32_t a, uint32_t b, uint32_t k)
{
    uint8_t *operation = row + 12 + 6 * index;
    operation[0] = (uint8_t)code;
    operation[1] = (uint8_t)a;
    operation[2] = (uint8_t)b;
    operation[3] = 0;
    operation[4] = (uint8_t)k;
    operation[5] = (uint8_t)(k >> 8);
}

static void put_access(uint8_t *row, uint32_t index, uint32_t cell, uint32_t mode)
{
    row[4 + 2 * index] = (uint8_t)cell;
    row[5 + 2 * index] = (uint8_t)mode;
}

static void put_head(uint8_t *row, uint32_t owner, uint32_t accesses, uint32_t operations)
{
    memset(row, 0, ROW_BYTES);
    row[0] = (uint8_t)owner;
    row[1] = (uint8_t)accesses;
    row[2] = (uint8_t)operations;
}

/* Of version 1. */
static void set_sizes(struct sample *flow, uint32_t tasks, uint32_t workers, uint32_t cells)
{
    flow->version = 1;
    flow->tasks = tasks;
    flow->workers = workers;
    flow->cells = cells;
}

void make_flow_a(struct sample *flow)
{
    uint8_t *row = flow->rows;
    set_sizes(flow, 3, 2, 3);

    put_head(row, 0, 1, 1);
    put_access(row, 0, 0, 2);
    put_operation(row, 0, 1, 0, 0, 4660);

    row += ROW_BYTES;
    put_head(row, 1, 2, 1);
    put_access(row, 0, 0, 1);
    put_access(row, 1, 1, 2);
    put_operation(row, 0, 5, 1, 0, 0);

    row += ROW_BYTES;
    put_head(row, 0, 2, 1);
    put_access(row, 0, 1, 1);
    put_access(row, 1, 2, 3);
    put_operation(row, 0, 3, 2, 1, 0);
}

/* How many cells a set has. */
static uint32_t count_of(uint32_t set)
{
    return (uint32_t)__builtin_popcount(set);
}

/* A cell of a set that has at least one. */
static uint32_t cell_of(struct random *random, uint32_t set)
{
    uint32_t skip = below(random, count_of(set));
    while (skip-- > 0)
        set &= set - 1;
    return (uint32_t)__builtin_ctz(set);
}

static uint32_t constant(struct random *random)
{
    static const uint16_t edges[] = {0, 1, 255, 256, 65535, 65280, 4660};
    return chance(random, 300) ? edges[below(random, 7)] : below(random, 65536);
}

/* One operation that the sets allow, on one of the targets; the cell written
   becomes readable. */
static void make_operation(struct random *random, uint8_t *row, uint32_t index,
                           uint32_t *readable, uint32_t targets, enum codes codes)
{
    uint32_t code = between(random, 1, codes);
    uint32_t a = cell_of(random, targets);

    if (*readable == 0)
        code = 1;
    if (code == 3 || code == 4 || code == 6) {
        if ((*readable & targets) != 0)
            a = cell_of(random, *readable & targets);
        else
            code = chance(random, 500) ? 2 : 5;
    }
    if (code == 1)
        put_operation(row, index, 1, a, 0, constant(random));
    else
        put_operation(row, index, code, a, cell_of(random, *readable), 0);
    *readable |= UINT32_C(1) << a;
}

/* The cells of mode 2 that no operation has written so far. */
static uint32_t unwritten(uint32_t readable, uint32_t writable)
{
    return writable & ~readable;
}

/* There are at least as many operations as cells of mode 2. Each such cell is
   written: by chance, or where no more operations are left than such cells. */
static void make_operations(struct random *random, uint8_t *row,
                            uint32_t readable, uint32_t writable, enum codes codes)
{
    for (uint32_t i = 0; i < row[2]; i++) {
        uint32_t owed = unwritten(readable, writable);
        bool all = count_of(owed) == row[2] - i;
        make_operation(random, row, i, &readable, all ? owed : writable, codes);
    }
}

void make_row(struct random *random, uint8_t *row, uint32_t workers, uint32_t hot,
              enum codes codes)
{
    uint32_t accesses = between(random, 1, hot < 4 ? hot : 4);
    uint32_t named = 0;
    uint32_t readable = 0;
    uint32_t writable = 0;

    put_head(row, below(random, workers), accesses, 0);
    for (uint32_t i = 0; i < accesses; i++) {
        uint32_t cell = below(random, hot);
        while (named >> cell & 1)
            cell = (cell + 1) % hot;
        uint32_t mode = between(random, 1, 3);
        put_access(row, i, cell, mode);
        named |= UINT32_C(1) << cell;
        readable |= mode != 2 ? UINT32_C(1) << cell : 0;
        writable |= mode != 1 ? UINT32_C(1) << cell : 0;
    }
    if (writable != 0)
        row[2] = (uint8_t)between(random, count_of(unwritten(readable, writable)), 6);
    make_operations(random, row, readable, writable, codes);
}

void make_flow(struct random *random, struct sample *flow,
               uint32_t tasks, uint32_t workers, uint32_t cells, enum codes codes)
{
    /* a few hot cells in every other flow, so that workers wait */
    uint32_t hot = chance(random, 500) ? between(random, 1, cells) : cells;

    set_sizes(flow, tasks, workers, cells);
    for (uint32_t i = 0; i < tasks; i++)
        make_row(random, flow->rows + i * ROW_BYTES, workers, hot, codes);
}

void make_full_flow(struct random *random, struct sample *flow,
                    uint32_t tasks, uint32_t workers, uint32_t cells, enum codes codes)
{
    set_sizes(flow, tasks, workers, cells);
    for (uint32_t i = 0; i < tasks; i++) {
        uint8_t *row = flow->rows + i * ROW_BYTES;
        uint32_t named = 0;
        put_head(row, below(random, workers), 4, 6);
        for (uint32_t j = 0; j < 4; j++) {
            uint32_t cell = below(random, cells);
            while (named >> cell & 1)
                cell = (cell + 1) % cells;
            put_access(row, j, cell, 3);
            named |= UINT32_C(1) << cell;
        }
        make_operations(random, row, named, named, codes);
    }
}

uint32_t own_of(const struct sample *flow)
{
    uint32_t own = 0;
    for (uint32_t i = 0; i < flow->tasks; i++) {
        const uint8_t *row = flow->rows + i * ROW_BYTES;
        for (uint32_t j = 0; j < row[1]; j++)
            own += row[5 + 2 * j] == 1 ? 2 : 4;
        own += row[2];
    }
    return own;
}

uint32_t total_of(const struct sample *flow)
{
    return own_of(flow) + flow->tasks * (flow->workers - 1);
}

/* ---- files ------------------------------------------------------------- */

uint32_t blocks_of(uint32_t tasks)
{
    return tasks / 10 + (tasks % 10 != 0);
}

static size_t row_offset(uint32_t index)
{
    return BLOCK_BYTES * (index / 10) + 16 + ROW_BYTES * (index % 10);
}

uint8_t *row_in_file(uint8_t *file, uint32_t index)
{
    return file + row_offset(index);
}

/* Whether one of a row's operations is "the larger of". */
static bool has_larger(const uint8_t *row)
{
    for (uint32_t i = 0; i < 6; i++)
        if (i < row[2] && row[12 + 6 * i] == 6)
            return true;
    return false;
}

uint32_t larger_in_file(const uint8_t *file, uint32_t tasks)
{
    for (uint32_t i = 0; i < tasks; i++)
        if (has_larger(file + row_offset(i)))
            return i + 1;
    return 0;
}

uint32_t larger_in_rows(const uint8_t *rows, uint32_t tasks)
{
    for (uint32_t i = 0; i < tasks; i++)
        if (has_larger(rows + i * ROW_BYTES))
            return i + 1;
    return 0;
}

/* As 01 says it, byte by byte. */
void put_check(uint8_t *block)
{
    uint32_t a = 0;
    uint32_t b = 0;
    for (uint32_t i = 0; i < 510; i++) {
        a = (a + block[i]) % 255;
        b = (b + a) % 255;
    }
    block[510] = (uint8_t)a;
    block[511] = (uint8_t)b;
}

static uint32_t get_two(const uint8_t *at)
{
    return at[0] + 256u * at[1];
}

static void put_two(uint8_t *at, uint32_t value)
{
    at[0] = (uint8_t)(value % 256);
    at[1] = (uint8_t)(value / 256);
}

size_t make_file(const struct sample *flow, uint8_t *file)
{
    uint32_t blocks = blocks_of(flow->tasks);

    memset(file, 0, (size_t)blocks * BLOCK_BYTES);
    for (uint32_t index = 0; index < blocks; index++) {
        uint8_t *block = file + BLOCK_BYTES * index;
        memcpy(block, "SFLW", 4);
        block[4] = (uint8_t)flow->version;
        block[5] = (uint8_t)(index + 1 < blocks ? 10 : flow->tasks - 10 * index);
        put_two(block + 6, index);
        put_two(block + 8, blocks);
        put_two(block + 10, flow->tasks);
        block[12] = (uint8_t)flow->workers;
        block[13] = (uint8_t)flow->cells;
    }
    for (uint32_t i = 0; i < flow->tasks; i++)
        memcpy(row_in_file(file, i), flow->rows + i * ROW_BYTES, ROW_BYTES);
    for (uint32_t index = 0; index < blocks; index++)
        put_check(file + BLOCK_BYTES * index);
    return (size_t)blocks * BLOCK_BYTES;
}

uint8_t other_version(uint8_t version)
{
    return version == 1 ? 2 : 1;
}

bool all_of_version(const uint8_t *file, size_t length, uint32_t version)
{
    for (size_t at = 0; at < length; at += BLOCK_BYTES)
        if (file[at + 4] != version)
            return false;
    return true;
}

/* ---- faults of a row --------------------------------------------------- */

/* A byte from `least` to 255, often one of the two. */
static uint8_t from(struct random *random, uint32_t least)
{
    if (chance(random, 500))
        return (uint8_t)(chance(random, 700) ? least : 255);
    return (uint8_t)between(random, least, 255);
}

/* A byte that is not zero, at one of some places. */
static void put_from_1(struct random *random, uint8_t *bytes, uint32_t count)
{
    uint32_t at = below(random, count);
    bytes[at] = from(random, 1);
}

static void spoil_counts(struct random *random, uint8_t *row)
{
    switch (below(random, 4)) {
    case 0:
        row[1] = 0;
        break;
    case 1:
        row[1] = from(random, 5);
        break;
    case 2:
        row[2] = from(random, 7);
        break;
    default:
        row[3] = from(random, 1);
        break;
    }
}

static void spoil_access(struct random *random, uint8_t *row, uint32_t cells)
{
    uint32_t index = below(random, 4);
    uint8_t *access = row + 4 + 2 * index;

    if (index >= row[1])
        put_from_1(random, access, 2);
    else if (chance(random, 400))
        access[0] = from(random, cells);
    else if (chance(random, 500))
        access[1] = 0;
    else
        access[1] = from(random, 4);
}

static void name_twice(struct random *random, uint8_t *row)
{
    if (row[1] == 1) {
        row[1] = 2;
        row[7] = (uint8_t)between(random, 1, 3);
    }
    uint32_t first = below(random, row[1]);
    uint32_t second = (first + between(random, 1, row[1] - 1u)) % row[1];
    row[4 + 2 * second] = row[4 + 2 * first];
}

static void spoil_used_operation(struct random *random, uint8_t *operation, uint32_t cells)
{
    switch (below(random, 6)) {
    case 0:
        operation[0] = 0;
        break;
    case 1:
        operation[0] = from(random, 7);
        break;
    case 2:
        operation[1] = from(random, cells);
        break;
    case 3:
        operation[2] = from(random, operation[0] == 1 ? 1 : cells);
        break;
    case 4:
        operation[3] = from(random, 1);
        break;
    default:
        if (operation[0] == 1)
            operation[2] = from(random, 1);
        else
            put_from_1(random, operation + 4, 2);
        break;
    }
}

static void spoil_operation(struct random *random, uint8_t *row, uint32_t cells)
{
    uint32_t index = below(random, 6);
    uint8_t *operation = row + 12 + 6 * index;

    if (index >= row[2])
        put_from_1(random, operation, 6);
    else
        spoil_used_operation(random, operation, cells);
}

/* The cells that the operation at `index` may read, and those it may write. */
static void rights_at(const uint8_t *row, uint32_t index,
                      uint32_t *readable, uint32_t *writable)
{
    *readable = 0;
    *writable = 0;
    for (uint32_t i = 0; i < row[1]; i++) {
        uint32_t bit = UINT32_C(1) << row[4 + 2 * i];
        *readable |= row[5 + 2 * i] != 2 ? bit : 0;
        *writable |= row[5 + 2 * i] != 1 ? bit : 0;
    }
    for (uint32_t i = 0; i < index; i++)
        *readable |= UINT32_C(1) << row[12 + 6 * i + 1];
}

static uint32_t all_cells(uint32_t cells)
{
    return cells == 32 ? UINT32_MAX : (UINT32_C(1) << cells) - 1;
}

/* An operation against the modes: it writes a cell of mode 1 or of none, or
   reads one of none or of mode 2 that is not yet written. */
static void spoil_modes(struct random *random, uint8_t *row, uint32_t cells,
                        enum codes codes)
{
    uint32_t all = all_cells(cells);
    uint32_t index = below(random, row[2] < 6 ? row[2] + 1u : 6);
    uint32_t readable;
    uint32_t writable;

    rights_at(row, index, &readable, &writable);
    uint32_t closed = all & ~writable;
    uint32_t hidden = all & ~readable;
    uint32_t code = between(random, 1, codes);
    if (index == row[2])
        row[2]++;

    if (closed != 0 && (hidden == 0 || chance(random, 500))) {
        uint32_t b = readable != 0 ? cell_of(random, readable) : below(random, cells);
        uint32_t k = code == 1 ? constant(random) : 0;
        put_operation(row, index, code, cell_of(random, closed), code == 1 ? 0 : b, k);
    } else if (hidden != 0) {
        uint32_t a = writable != 0 ? cell_of(random, writable) : below(random, cells);
        uint32_t b = cell_of(random, hidden);
        if (readable != 0 && chance(random, 300)) {
            /* codes 3, 4 and 6 read a as well */
            static const uint8_t both[] = {3, 4, 6};
            uint32_t which = below(random, codes == SIX_CODES ? 3 : 2);
            put_operation(row, index, both[which], b, cell_of(random, readable), 0);
        } else {
            put_operation(row, index, code == 1 ? 2 : code, a, b, 0);
        }
    } else {
        /* every cell is open to everything: make the first access a read */
        put_access(row, 0, row[4], 1);
        put_operation(row, index, 1, row[4], 0, constant(random));
    }
}

/* Takes an operation away; those after it move up. */
static void drop_operation(uint8_t *row, uint32_t index)
{
    uint8_t *operation = row + 12 + 6 * index;

    memmove(operation, operation + 6, 6 * (5 - index));
    memset(row + 42, 0, 6);
    row[2]--;
}

/* No operation writes or reads this cell any more. One that wrote it is gone or
   writes another; one that read it still writes what it wrote, so that all
   others may read what they read. */
static void turn_away(struct random *random, uint8_t *row, uint32_t cell, enum codes codes)
{
    uint32_t others = ~(UINT32_C(1) << cell);
    uint32_t i = 0;

    while (i < row[2]) {
        const uint8_t *operation = row + 12 + 6 * i;
        bool writes = operation[1] == cell;
        bool reads = operation[0] != 1 && operation[2] == cell;
        uint32_t readable;
        uint32_t writable;

        rights_at(row, i, &readable, &writable);
        readable &= others;
        writable &= others;
        if (writes && (writable == 0 || chance(random, 400))) {
            drop_operation(row, i);
            continue;
        }
        if (writes || reads)
            make_operation(random, row, i, &readable,
                           writes ? writable : UINT32_C(1) << operation[1], codes);
        i++;
    }
}

/* One access more, of mode 2, anywhere among the others. */
static void add_access(struct random *random, uint8_t *row, uint32_t cell)
{
    uint32_t index = below(random, row[1] + 1u);
    uint8_t *access = row + 4 + 2 * index;

    memmove(access + 2, access, 2 * (row[1] - index));
    put_access(row, index, cell, 2);
    row[1]++;
}

/* A cell of mode 2 that no operation writes, and nothing against the modes: a
   cell of a new access, or one of any access that the operations now leave
   alone. */
static void leave_unwritten(struct random *random, uint8_t *row, uint32_t cells,
                            enum codes codes)
{
    uint32_t index = below(random, row[1]);
    uint32_t cell = row[4 + 2 * index];
    uint32_t unnamed = all_cells(cells);

    for (uint32_t i = 0; i < row[1]; i++)
        unnamed &= ~(UINT32_C(1) << row[4 + 2 * i]);
    if (row[1] < 4 && unnamed != 0 && chance(random, 300)) {
        add_access(random, row, cell_of(random, unnamed));
        return;
    }
    turn_away(random, row, cell, codes);
    put_access(row, index, cell, 2);
}

/* Makes room for an operation; those from there on move down. */
static void insert_operation(uint8_t *row, uint32_t index)
{
    uint8_t *operation = row + 12 + 6 * index;

    memmove(operation + 6, operation, 6 * (5 - index));
    row[2]++;
}

/* Whether the operation keeps to the modes and may read the cell that it writes,
   so that it may be operation 6 on that cell. */
static bool may_be_larger(const uint8_t *operation, uint32_t readable, uint32_t writable)
{
    uint32_t a = UINT32_C(1) << operation[1];
    uint32_t b = operation[0] == 1 ? 0 : UINT32_C(1) << operation[2];

    return (a & readable & writable) != 0 && (b & ~readable) == 0;
}

/* Operation 6 at this index: in the place of one that writes the same cell, or
   put in before it. All that is written and may be read stays as it was. False
   if there can be none. */
static bool put_larger_at(struct random *random, uint8_t *row, uint32_t index)
{
    uint8_t *operation = row + 12 + 6 * index;
    uint32_t readable;
    uint32_t writable;

    rights_at(row, index, &readable, &writable);
    if (index < row[2] && may_be_larger(operation, readable, writable) &&
        (row[2] == 6 || chance(random, 500))) {
        put_operation(row, index, 6, operation[1], cell_of(random, readable), 0);
        return true;
    }
    if (row[2] == 6 || (readable & writable) == 0)
        return false;
    uint32_t a = cell_of(random, readable & writable);
    insert_operation(row, index);
    put_operation(row, index, 6, a, cell_of(random, readable), 0);
    return true;
}

/* Where there can be none: a row without operations, which gets one on a cell
   that may be written from now on; or one with a fault 11 or 17, of which any
   operation is operation 6 from now on. */
static void force_larger(struct random *random, uint8_t *row)
{
    if (row[2] == 0) {
        uint32_t access = below(random, row[1]);
        uint32_t b = row[4 + 2 * below(random, row[1])];
        row[2] = 1;
        row[5 + 2 * access] = 3;
        put_operation(row, 0, 6, row[4 + 2 * access], b, 0);
    } else {
        uint32_t index = below(random, row[2]);
        const uint8_t *operation = row + 12 + 6 * index;
        put_operation(row, index, 6, operation[1], operation[2], 0);
    }
}

/* Operation 6 at one of the indices at which it can be. */
static void put_larger(struct random *random, uint8_t *row)
{
    uint32_t places = row[2] + 1u;
    uint32_t first = below(random, places);

    for (uint32_t i = 0; i < places; i++)
        if (put_larger_at(random, row, (first + i) % places))
            return;
    force_larger(random, row);
}

/* Mostly one operation 6. Where it is a fault, now and then with one beside it
   that comes after it in the order. */
static void spoil_codes(struct random *random, uint8_t *row, uint32_t cells, enum codes codes)
{
    if (codes == FIVE_CODES && chance(random, 100))
        leave_unwritten(random, row, cells, codes);
    if (codes == FIVE_CODES && chance(random, 150))
        spoil_modes(random, row, cells, SIX_CODES);
    if (codes == SIX_CODES || !has_larger(row))
        put_larger(random, row);
    while (chance(random, 150))
        put_larger(random, row);
}

void spoil_row(struct random *random, uint8_t *row, uint32_t number,
               uint32_t workers, uint32_t cells, enum codes codes)
{
    switch (number) {
    case 6:
        row[0] = from(random, workers);
        break;
    case 7:
        spoil_counts(random, row);
        break;
    case 8:
        spoil_access(random, row, cells);
        break;
    case 9:
        name_twice(random, row);
        break;
    case 10:
        if (chance(random, 100)) /* 10 comes before 18 */
            put_larger(random, row);
        spoil_operation(random, row, cells);
        break;
    case 11:
        spoil_modes(random, row, cells, codes);
        break;
    case 18:
        spoil_codes(random, row, cells, codes);
        break;
    default:
        do
            leave_unwritten(random, row, cells, codes);
        while (chance(random, 150)); /* mostly one cell */
        break;
    }
}

/* ---- faults of a block ------------------------------------------------- */

/* Another value than the one there. */
static void change_byte(struct random *random, uint8_t *at)
{
    static const uint8_t by[] = {1, 255, 128, 16};
    uint32_t add = chance(random, 500) ? by[below(random, 4)] : between(random, 1, 255);
    *at = (uint8_t)(*at + add);
}

/* Makes one of the two sums 0 by byte 509, which both count once. */
static void make_sum_zero(uint8_t *block, const uint8_t *check)
{
    put_check(block);
    block[509] = (uint8_t)((block[509] + 255u - *check) % 255);
    put_check(block);
}

static void spoil_check(struct random *random, uint8_t *block)
{
    uint8_t *check = block + 510 + below(random, 2);
    if (chance(random, 150)) {
        /* "The stored byte must equal the sum, so 255 never matches." */
        make_sum_zero(block, check);
        *check = 255;
    } else if (chance(random, 500)) {
        change_byte(random, check);
    } else {
        /* a byte under the check: 0 and 255 count the same, so not those two */
        uint8_t *at = block + below(random, 510);
        uint8_t was = *at;
        do {
            *at = was;
            change_byte(random, at);
        } while (*at % 255 == was % 255);
    }
}

/* A version that is neither 1 nor 2: often one beside them, or the last. */
static uint8_t no_version(struct random *random)
{
    if (chance(random, 250))
        return 0;
    return from(random, MOST_VERSION + 1);
}

/* "a version that is neither 1 nor 2, or not block 0's" (02, Q-8) */
static void spoil_version(struct random *random, uint8_t *file, uint32_t index)
{
    uint8_t *block = file + BLOCK_BYTES * index;

    if (index == 0 || chance(random, 300)) {
        block[4] = no_version(random);
    } else if (index == 1 && chance(random, 300)) {
        /* block 0 sets the version, so block 1 is the one at fault */
        file[4] = other_version(file[4]);
        put_check(file);
    } else {
        block[4] = other_version(file[4]);
    }
}

static void spoil_head(struct random *random, uint8_t *file, uint32_t index)
{
    static const uint8_t places[] = {0, 1, 2, 3, 6, 7, 8, 9, 14, 15, 6, 8};
    uint8_t *block = file + BLOCK_BYTES * index;

    if (chance(random, index == 0 ? 250 : 600))
        spoil_version(random, file, index);
    else
        change_byte(random, block + places[below(random, sizeof places)]);
}

static void put_tasks(uint8_t *file, uint32_t blocks, uint32_t tasks)
{
    for (uint32_t i = 0; i < blocks; i++) {
        put_two(file + BLOCK_BYTES * i + 10, tasks);
        put_check(file + BLOCK_BYTES * i);
    }
}

static uint32_t tasks_outside(struct random *random)
{
    uint32_t high;
    switch (below(random, 4)) {
    case 0:
        return 0;
    case 1:
        return 201;
    case 2:
        high = 256 * between(random, 1, 255);
        return high + below(random, 201);
    default:
        return between(random, 201, 65535);
    }
}

/* Another number of tasks, from 1 to 200, that needs as many blocks; or the
   same if there is none. */
static uint32_t tasks_beside(struct random *random, uint32_t blocks)
{
    return between(random, 10 * (blocks - 1) + 1, 10 * blocks);
}

/* A number of tasks from 1 to 200 that needs another number of blocks. */
static uint32_t tasks_elsewhere(struct random *random, uint32_t blocks)
{
    uint32_t other = 1 + (blocks - 1 + between(random, 1, MOST_BLOCKS - 1)) % MOST_BLOCKS;
    if (blocks > 1 && chance(random, 500))
        return 10 * (blocks - 1);
    return tasks_beside(random, other);
}

/* The rule that only block 0 can break, at block 0. */
static void spoil_first_sizes(struct random *random, uint8_t *file, uint32_t blocks)
{
    uint32_t spread = chance(random, 500) ? blocks : 1;
    switch (below(random, 5)) {
    case 0:
        put_tasks(file, spread, tasks_outside(random));
        break;
    case 1:
        put_tasks(file, spread, tasks_elsewhere(random, blocks));
        break;
    case 2:
        file[12] = chance(random, 300) ? 0 : from(random, MOST_WORKERS + 1);
        break;
    case 3:
        file[13] = chance(random, 300) ? 0 : from(random, MOST_CELLS + 1);
        break;
    default:
        change_byte(random, file + 5);
        break;
    }
}

/* A block after block 0 that says other sizes than block 0, or other rows. */
static void spoil_later_sizes(struct random *random, uint8_t *file, uint32_t blocks,
                              uint32_t index)
{
    uint8_t *block = file + BLOCK_BYTES * index;
    uint32_t tasks = tasks_beside(random, blocks);

    if (chance(random, 250)) {
        change_byte(random, block + 5);
    } else if (chance(random, 300) && tasks != get_two(block + 10)) {
        put_two(block + 10, tasks);
    } else if (index == 1 && chance(random, 400)) {
        /* block 0 sets the sizes, so block 1 is the one at fault */
        if (chance(random, 500))
            file[12] = (uint8_t)(file[12] % MOST_WORKERS + 1);
        else
            file[13] = (uint8_t)(file[13] % MOST_CELLS + 1);
        put_check(file);
    } else {
        static const uint8_t places[] = {10, 11, 12, 13};
        change_byte(random, block + places[below(random, 4)]);
    }
}

static void spoil_rest(struct random *random, uint8_t *block)
{
    uint32_t used_to = 16 + ROW_BYTES * (uint32_t)block[5];
    uint32_t at;
    if (used_to < 496 && chance(random, 700))
        at = between(random, used_to, 495);
    else
        at = between(random, 496, 509);
    if (chance(random, 200))
        at = chance(random, 500) ? 509 : used_to;
    block[at] = from(random, 1);
}

void spoil_block(struct random *random, uint8_t *file, uint32_t blocks,
                 uint32_t index, uint32_t number)
{
    uint8_t *block = file + BLOCK_BYTES * index;
    switch (number) {
    case 2:
        spoil_check(random, block);
        return;
    case 3:
        spoil_head(random, file, index);
        break;
    case 4:
        if (index == 0)
            spoil_first_sizes(random, file, blocks);
        else
            spoil_later_sizes(random, file, blocks, index);
        break;
    default:
        spoil_rest(random, block);
        break;
    }
    put_check(block);
}
