/*
 * Goes through every call, by the exports and by the checked calls: answers, refusals in their order, what room holds
 * afterwards, and what only the checked calls refuse. What is expected is document 01's, enumerated or worked out here.
 * Prints how many checks were made, or stops at the line of the first that fails.
 */
#include "tanglepunt.h"

#include <inttypes.h>
#include <stdio.h>
#include <stdlib.h>

enum { TABLE = TANGLEPUNT_TABLE, ROOM = TANGLEPUNT_ROOM, STACK = TANGLEPUNT_STACK, LONGEST = TANGLEPUNT_FILE };
enum { SPARE = 8 };

static unsigned long checks;
static unsigned long in_case; /* the case under test: its line, or its place in its table */

#define CHECK(so)                                                                                                      \
    do {                                                                                                               \
        checks++;                                                                                                      \
        if (!(so)) {                                                                                                   \
            fprintf(stderr, "%s:%d: case %lu: not so: %s\n", __FILE__, __LINE__, in_case, #so);                        \
            exit(1);                                                                                                   \
        }                                                                                                              \
    } while (0)

/* A check that is made from many lines. */
#define AT(call)                                                                                                       \
    do {                                                                                                               \
        in_case = __LINE__;                                                                                            \
        call;                                                                                                          \
    } while (0)

/* The calls under test: both faces have the same arguments and answers. */
typedef struct {
    tanglepunt_number (*total)(const uint8_t *, size_t, const uint32_t *, size_t, uint64_t, uint64_t, uint64_t *, size_t,
                               uint64_t *, size_t);
    tanglepunt_number (*count)(const uint8_t *, size_t, const uint32_t *, size_t, uint64_t, uint64_t, uint64_t, uint64_t,
                               uint64_t *, size_t, uint64_t *, size_t);
    tanglepunt_number (*strike)(const uint8_t *, size_t, uint32_t *, size_t, uint64_t, uint64_t, uint64_t *, size_t,
                                uint64_t *, size_t);
    tanglepunt_reading (*read)(const uint8_t *, size_t);
    tanglepunt_reading (*read_at)(const uint8_t *, size_t, uint64_t);
    tanglepunt_counts (*board_counts)(const uint8_t *, size_t);
    tanglepunt_number (*write)(tanglepunt_board, uint8_t *, size_t);
    tanglepunt_advice (*advise)(const uint8_t *, size_t, uint32_t *, size_t, uint64_t *, size_t, uint64_t *, size_t);
    tanglepunt_ending (*search)(const uint8_t *, size_t, uint64_t *, uint32_t *, size_t, uint32_t *, size_t, uint64_t *,
                                size_t, uint64_t *, size_t);
} face;

static const face FACES[] = {
    {tanglepunt_total, tanglepunt_count, tanglepunt_strike, tanglepunt_read, tanglepunt_read_at,
     tanglepunt_board_counts, tanglepunt_write, tanglepunt_advise, tanglepunt_search},
    {tanglepunt_checked_total, tanglepunt_checked_count, tanglepunt_checked_strike, tanglepunt_checked_read,
     tanglepunt_checked_read_at, tanglepunt_checked_board_counts, tanglepunt_checked_write, tanglepunt_checked_advise,
     tanglepunt_checked_search},
};

static const face *by;

/* ---- All room and all inputs in one piece: one comparison shows that nothing was touched. */

typedef struct {
    uint64_t forward[TABLE + SPARE], backward[TABLE + SPARE], choices;
    uint32_t domains[16], stack[STACK + SPARE], room[ROOM + SPARE];
    uint8_t weights[16], file[LONGEST + SPARE], written[LONGEST + SPARE];
} rooms;

static rooms now, before;

/* Every byte from here on is known. */
static void keep(void)
{
    before = now;
}

static int untouched(void)
{
    return memcmp(&now, &before, sizeof now) == 0;
}

/* ---- Rows, and what document 01 says of them, by going through all fillings. */

typedef struct {
    size_t cells;
    uint8_t weights[11];
    uint32_t domains[11];
    uint64_t low, high;
} row;

#define FULL UINT32_MAX
static const row FIGURE = {4, {3, 1, 2, 1}, {0x7, 0xB, 0x7, 0x6}, 5, 8};

typedef struct {
    uint64_t total, counts[10][32], forward[TABLE], backward[TABLE];
} numbers;

/* Adds one to each number that a filling of the cells from `first` up to `last` belongs to. */
static void add_filling(const row *r, size_t first, size_t last, const int *values, uint64_t sum, numbers *n)
{
    if (first == 0 && sum < 512)
        n->forward[512 * last + sum]++;
    if (last == r->cells)
        for (uint64_t b = 0; b < 512; b++)
            n->backward[512 * first + b] += r->low <= b + sum && b + sum <= r->high;
    if (first == 0 && last == r->cells && r->low <= sum && sum <= r->high) {
        n->total++;
        for (size_t place = 0; place < last; place++)
            n->counts[place][values[place]]++;
    }
}

/* Every filling of the cells from `at` up to `last`, after those before it have their values. */
static void fill_cells(const row *r, size_t first, size_t at, size_t last, int *values, uint64_t sum, numbers *n)
{
    if (at == last) {
        add_filling(r, first, last, values, sum, n);
        return;
    }
    for (int v = 0; v < 32; v++)
        if (r->domains[at] >> v & 1) {
            values[at] = v;
            fill_cells(r, first, at + 1, last, values, sum + (uint64_t)r->weights[at] * (uint64_t)v, n);
        }
}

/* The total, the counts and both tables: the first cells for forward, the remaining ones for backward. */
static void enumerate(const row *r, numbers *n)
{
    int values[10];
    memset(n, 0, sizeof *n);
    for (size_t i = 0; i <= r->cells; i++)
        fill_cells(r, 0, 0, i, values, 0, n);
    for (size_t i = 1; i <= r->cells; i++)
        fill_cells(r, i, i, r->cells, values, 0, n);
}

static void place_row(const row *r)
{
    memset(&now, 0xA5, sizeof now);
    memcpy(now.weights, r->weights, sizeof r->weights);
    memcpy(now.domains, r->domains, sizeof r->domains);
    keep();
}

static tanglepunt_number total_of(const row *r)
{
    place_row(r);
    return by->total(now.weights, r->cells, now.domains, r->cells, r->low, r->high, now.forward, TABLE, now.backward,
                     TABLE);
}

static tanglepunt_number count_of(const row *r, uint64_t place, uint64_t value)
{
    place_row(r);
    return by->count(now.weights, r->cells, now.domains, r->cells, r->low, r->high, place, value, now.forward, TABLE,
                     now.backward, TABLE);
}

static tanglepunt_number strike_of(const row *r)
{
    place_row(r);
    return by->strike(now.weights, r->cells, now.domains, r->cells, r->low, r->high, now.forward, TABLE, now.backward,
                      TABLE);
}

/* The tables hold the row's numbers and nothing else has changed, the domains of a strike apart. */
static void check_tables(const row *r, const numbers *n)
{
    size_t used = 512 * (r->cells + 1) * sizeof(uint64_t);
    CHECK(memcmp(now.forward, n->forward, used) == 0);
    CHECK(memcmp(now.backward, n->backward, used) == 0);
    memcpy(before.forward, now.forward, used);
    memcpy(before.backward, now.backward, used);
    CHECK(untouched());
}

static void check_strike(const row *r, const numbers *n)
{
    uint64_t gone = 0;
    tanglepunt_number struck = strike_of(r);
    for (size_t place = 0; place < r->cells; place++)
        for (int v = 0; v < 32; v++)
            if (r->domains[place] >> v & 1 && n->counts[place][v] == 0) {
                before.domains[place] &= ~(UINT32_C(1) << v);
                gone++;
            }
    CHECK(struck.refused == 0 && struck.number == gone);
    check_tables(r, n);
}

/* The three row calls beside the enumeration. */
static void check_row(const row *r)
{
    static numbers n;
    enumerate(r, &n);
    tanglepunt_number total = total_of(r);
    CHECK(total.refused == 0 && total.number == n.total);
    check_tables(r, &n);
    for (uint64_t place = 0; place < r->cells; place++)
        for (uint64_t value = 0; value < 32; value++) {
            tanglepunt_number count = count_of(r, place, value);
            CHECK(count.refused == 0 && count.number == n.counts[place][value]);
        }
    check_tables(r, &n);
    check_strike(r, &n);
}

static uint32_t chance(uint32_t below)
{
    static uint64_t state = 1;
    state = state * UINT64_C(6364136223846793005) + 1442695040888963407u;
    return (uint32_t)((state >> 33) % below);
}

/* Up to five cells of up to four values, with holes, any weights; low and high anywhere. */
static row any_row(void)
{
    row r = {.cells = 1 + chance(5), .low = chance(60)};
    const uint8_t weights[] = {0, 1, 1, 2, 3, 7, 100, 255};
    r.high = r.low + chance(chance(2) ? 10 : 452);
    for (size_t place = 0; place < r.cells; place++) {
        r.weights[place] = weights[chance(8)];
        for (uint32_t k = chance(5); k > 0; k--)
            r.domains[place] |= UINT32_C(1) << chance(chance(2) ? 6 : 32);
    }
    return r;
}

/* Document 01's totals and counts. */
static void test_examples(void)
{
    static const struct {
        row r;
        uint64_t total;
    } totals[] = {
        {{4, {3, 1, 2, 1}, {0x7, 0xB, 0x7, 0x6}, 5, 8}, 22},
        {{1, {0}, {FULL}, 0, 0}, 32},
        {{1, {0}, {FULL}, 1, 1}, 0},
        {{2, {1, 1}, {0x7, 0x7}, 2, 2}, 3},
        {{2, {2, 2}, {0xF, 0xF}, 5, 5}, 0},
        {{1, {255}, {0xC}, 510, 511}, 1},
        {{2, {1, 1}, {0x20, 0}, 0, 511}, 0},
        {{10, {0}, {FULL, FULL, FULL, FULL, FULL, FULL, FULL, FULL, FULL, FULL}, 0, 0}, UINT64_C(1125899906842624)},
    };
    for (size_t k = 0; k < sizeof totals / sizeof *totals; k++) {
        in_case = k;
        tanglepunt_number total = total_of(&totals[k].r);
        CHECK(total.refused == 0 && total.number == totals[k].total);
    }
    CHECK(count_of(&FIGURE, 0, 1).number == 10);
    CHECK(count_of(&FIGURE, 1, 2).number == 0);
    CHECK(count_of(&FIGURE, 3, 1).number == 11);
}

static void test_rows(void)
{
    check_row(&FIGURE);
    for (unsigned k = 0; k < 200; k++) {
        row r = any_row();
        in_case = k;
        check_row(&r);
    }
}

/* ---- Refusals of the row calls. */

/* Arguments of a row call; the pointers are those of `now`. */
typedef struct {
    size_t weights, domains;
    uint64_t low, high, place, value;
    size_t forward, backward;
    int refused;
} row_case;

static const row_case ROW_CASES[] = {
    /* each in its order: all wrong, then one less */
    {0, 0, 9, 8, 4, 32, TABLE - 1, TABLE - 1, 1},
    {4, 4, 9, 8, 4, 32, TABLE - 1, TABLE - 1, 2},
    {4, 4, 5, 8, 4, 32, TABLE - 1, TABLE - 1, 3},
    {4, 4, 5, 8, 4, 32, TABLE, TABLE, 4},
    {4, 4, 5, 8, 3, 31, TABLE, TABLE, 0},
    /* each part of each number, at its edge */
    {11, 11, 5, 8, 0, 0, TABLE, TABLE, 1},
    {10, 10, 5, 8, 0, 0, TABLE, TABLE, 0},
    {4, 3, 5, 8, 0, 0, TABLE, TABLE, 1},
    {3, 4, 5, 8, 0, 0, TABLE, TABLE, 1},
    {0, 4, 5, 8, 0, 0, TABLE, TABLE, 1},
    {4, 0, 5, 8, 0, 0, TABLE, TABLE, 1},
    {4, 4, 8, 8, 0, 0, TABLE, TABLE, 0},
    {4, 4, 9, 8, 0, 0, TABLE, TABLE, 2},
    {4, 4, 0, 511, 0, 0, TABLE, TABLE, 0},
    {4, 4, 0, 512, 0, 0, TABLE, TABLE, 2},
    {4, 4, 0, UINT64_MAX, 0, 0, TABLE, TABLE, 2},
    {4, 4, UINT64_MAX, UINT64_MAX, 0, 0, TABLE, TABLE, 2},
    {4, 4, 5, 8, 0, 0, TABLE - 1, TABLE, 3},
    {4, 4, 5, 8, 0, 0, TABLE, TABLE - 1, 3},
    {4, 4, 5, 8, 0, 0, 0, TABLE, 3},
    {4, 4, 5, 8, 0, 0, TABLE, 0, 3},
    {4, 4, 5, 8, 0, 0, TABLE + SPARE, TABLE + SPARE, 0},
    {4, 4, 5, 8, 4, 0, TABLE, TABLE, 4},
    {4, 4, 5, 8, UINT64_MAX, 0, TABLE, TABLE, 4},
    {4, 4, 5, 8, 0, 32, TABLE, TABLE, 4},
    {4, 4, 5, 8, 0, UINT64_MAX, TABLE, TABLE, 4},
};

static void check_number(tanglepunt_number answer, int refused)
{
    CHECK(answer.refused == refused);
    if (refused)
        CHECK(answer.number == 0 && untouched());
}

static void test_row_refusals(void)
{
    for (size_t k = 0; k < sizeof ROW_CASES / sizeof *ROW_CASES; k++) {
        const row_case *c = &ROW_CASES[k];
        in_case = k;
        int without_place = c->refused == 4 ? 0 : c->refused;
        place_row(&FIGURE);
        check_number(by->count(now.weights, c->weights, now.domains, c->domains, c->low, c->high, c->place, c->value,
                               now.forward, c->forward, now.backward, c->backward),
                     c->refused);
        place_row(&FIGURE);
        check_number(by->total(now.weights, c->weights, now.domains, c->domains, c->low, c->high, now.forward,
                               c->forward, now.backward, c->backward),
                     without_place);
        place_row(&FIGURE);
        check_number(by->strike(now.weights, c->weights, now.domains, c->domains, c->low, c->high, now.forward,
                                c->forward, now.backward, c->backward),
                     without_place);
    }
}

/* ---- Ranking. */

__extension__ typedef unsigned __int128 wide;

static void check_rank(uint64_t c1, uint64_t t1, uint64_t c2, uint64_t t2)
{
    tanglepunt_order order = tanglepunt_rank(c1, t1, c2, t2);
    wide first = (wide)c1 * t2, second = (wide)c2 * t1;
    CHECK(order.refused == 0 && order.order == (first < second ? 0 : first == second ? 1 : 2));
}

static void test_rank(void)
{
    const uint64_t n = UINT64_C(1) << 50;
    const uint64_t some[] = {0, 1, 2, 5, 10, 11, 22, n - 2, n - 1, n, UINT64_MAX - 1, UINT64_MAX};
    const size_t many = sizeof some / sizeof *some;
    CHECK(tanglepunt_rank(10, 22, 5, 11).order == TANGLEPUNT_EQUAL);
    CHECK(tanglepunt_rank(n - 1, n, n - 2, n - 1).order == TANGLEPUNT_ABOVE);
    CHECK(tanglepunt_rank(n - 2, n - 1, n - 1, n).order == TANGLEPUNT_BELOW);
    for (size_t k = 0; k < many * many * many * many; k++) {
        uint64_t c1 = some[k % many], t1 = some[k / many % many];
        uint64_t c2 = some[k / many / many % many], t2 = some[k / many / many / many];
        tanglepunt_order order = tanglepunt_rank(c1, t1, c2, t2);
        if (t1 == 0 || t2 == 0)
            CHECK(order.refused == 5 && order.order == 0);
        else
            check_rank(c1, t1, c2, t2);
    }
}

/* ---- Board files. Document 01's example; its rows start at 12 and 21, its trailer at 30. */

static const uint8_t EXAMPLE[36] = {0x0E, 0, 0, 0, 0x0E, 0, 0, 0, 0x0E, 0, 0, 0, 2, 3, 0, 3, 0, 0,
                                    1,    1, 1, 2, 7,    0, 8, 0, 1,    1, 2, 2, 12, 0, 3, 2, 0x53, 0x4C};

/* The example as a record. */
static tanglepunt_board example_board(void)
{
    tanglepunt_board b;
    memset(&b, 0, sizeof b);
    b.cells = 3;
    b.rows = 2;
    b.domains[0] = b.domains[1] = b.domains[2] = 0xE;
    b.lines[0] = (tanglepunt_row){2, 3, 3, {0, 1}, {1, 1}};
    b.lines[1] = (tanglepunt_row){2, 7, 8, {1, 2}, {1, 2}};
    return b;
}

/* Whether all fields agree, spare places too; padding between fields doesn't count. */
static int same_places(const tanglepunt_board *a, const tanglepunt_board *b)
{
    int same = a->cells == b->cells && a->rows == b->rows && memcmp(a->domains, b->domains, sizeof a->domains) == 0;
    for (size_t k = 0; k < TANGLEPUNT_BOARD_ROWS; k++) {
        const tanglepunt_row *x = &a->lines[k], *y = &b->lines[k];
        same = same && x->len == y->len && x->low == y->low && x->high == y->high
            && memcmp(x->names, y->names, sizeof x->names) == 0
            && memcmp(x->weights, y->weights, sizeof x->weights) == 0;
    }
    return same;
}

static void place_file(const uint8_t *file, size_t n)
{
    memset(&now, 0xA5, sizeof now);
    memcpy(now.file, file, n);
    keep();
}

/* Bytes of the example changed: a place, from the end where it is below 0, and its byte. Pairs of zeros fill up. */
typedef struct {
    int refused;
    struct {
        int at, byte;
    } edits[8];
} file_case;

static const file_case FILE_CASES[] = {
    /* each in its order: all wrong, then one less */
    {7, {{-1, 0}, {-4, 0}, {-6, 0}, {12, 0}, {13, 9}, {17, 9}, {19, 9}, {-3, 1}}},
    {8, {{-4, 0}, {-6, 0}, {12, 0}, {13, 9}, {17, 9}, {19, 9}, {-3, 1}}},
    {9, {{-6, 0}, {12, 0}, {13, 9}, {17, 9}, {19, 9}, {-3, 1}}},
    {1, {{12, 0}, {13, 9}, {17, 9}, {19, 9}, {-3, 1}}},
    {2, {{13, 9}, {17, 9}, {19, 9}, {-3, 1}}},
    {11, {{17, 9}, {19, 9}, {-3, 1}}},
    {12, {{19, 0}, {-3, 1}}},
    {10, {{-3, 1}}},
    {0, {{0, 0}}},
    /* each part of each number */
    {7, {{-2, 0x4C}}},
    {8, {{-4, 65}}},
    {8, {{-3, 0}}},
    {8, {{-3, 33}}},
    {9, {{-6, 13}}},
    {9, {{-5, 1}}},
    {9, {{-4, 64}, {-5, 1}, {-6, 0}}}, /* four times the cells, and past the trailer */
    {10, {{-3, 3}}},                   /* the head of a third row runs into the trailer */
    {1, {{12, 11}}},
    {1, {{21, 0}}},
    {2, {{16, 2}}}, /* high 515 */
    {2, {{22, 9}}},
    {10, {{12, 10}}},           /* pairs that don't fit */
    {10, {{21, 3}, {26, 200}}}, /* before 11 is tested */
    {2, {{21, 3}, {22, 9}}},    /* after 2 was */
    {11, {{17, 3}}},
    {11, {{28, 3}}},
    {12, {{28, 1}}},
    {12, {{19, 0}, {21, 0}}}, /* the first row before the second */
};

static void check_read(tanglepunt_reading reading, int refused)
{
    static const tanglepunt_board zero;
    CHECK(reading.refused == refused);
    CHECK(!refused || same_places(&reading.board, &zero));
    CHECK(untouched());
}

/* Every call on a file gives this number, and touches nothing. */
static void check_file_refused(size_t n, int refused)
{
    check_read(by->read(now.file, n), refused);
    check_read(by->read_at(now.file, n, n), refused);
    tanglepunt_counts counts = by->board_counts(now.file, n);
    CHECK(counts.refused == refused && counts.cells == 0 && counts.rows == 0);
    tanglepunt_advice advice = by->advise(now.file, n, now.room, ROOM, now.forward, TABLE, now.backward, TABLE);
    CHECK(advice.refused == refused && advice.kind == 0 && advice.passes == 0 && advice.struck == 0);
    CHECK(advice.cell == 0 && advice.value == 0 && advice.row == 0 && advice.count == 0 && advice.total == 0);
    CHECK(advice.share == 0.0 && untouched());
    tanglepunt_ending ending = by->search(now.file, n, &now.choices, now.room, ROOM, now.stack, STACK, now.forward,
                                          TABLE, now.backward, TABLE);
    CHECK(ending.refused == refused && ending.ending == 0 && untouched());
}

static void test_file_refusals(void)
{
    for (size_t k = 0; k < sizeof FILE_CASES / sizeof *FILE_CASES; k++) {
        const file_case *c = &FILE_CASES[k];
        in_case = k;
        place_file(EXAMPLE, sizeof EXAMPLE);
        for (size_t e = 0; e < sizeof c->edits / sizeof *c->edits; e++)
            if (c->edits[e].at || c->edits[e].byte)
                now.file[c->edits[e].at < 0 ? 36 + c->edits[e].at : c->edits[e].at] = (uint8_t)c->edits[e].byte;
        keep();
        if (c->refused)
            check_file_refused(sizeof EXAMPLE, c->refused);
        else
            check_read(by->read(now.file, sizeof EXAMPLE), 0);
    }
    for (size_t n = 0; n < 6; n++)
        check_file_refused(n, 6);
    AT(check_file_refused(LONGEST + 1, 6));
    AT(check_file_refused(LONGEST, 7));
    place_file(EXAMPLE + 30, 6); /* a trailer alone: its start lies past it */
    AT(check_file_refused(6, 9));
}

static void test_read(void)
{
    const tanglepunt_board expected = example_board();
    static const tanglepunt_board zero;
    place_file(EXAMPLE, sizeof EXAMPLE);
    tanglepunt_reading reading = by->read(now.file, sizeof EXAMPLE);
    CHECK(reading.refused == 0 && same_places(&reading.board, &expected));
    tanglepunt_counts counts = by->board_counts(now.file, sizeof EXAMPLE);
    CHECK(counts.refused == 0 && counts.cells == 3 && counts.rows == 2);

    /* the trailer at 30, in a longer file; at another place; past the last place for one */
    reading = by->read_at(now.file, 100, 30);
    CHECK(reading.refused == 0 && same_places(&reading.board, &expected));
    reading = by->read_at(now.file, sizeof EXAMPLE, 29);
    CHECK(reading.refused == 7 && same_places(&reading.board, &zero));
    CHECK(by->read_at(now.file, sizeof EXAMPLE, 0).refused == 7);
    CHECK(by->read_at(now.file, sizeof EXAMPLE, 31).refused == 0);
    CHECK(by->read_at(now.file, sizeof EXAMPLE, UINT64_MAX).refused == 0);
    CHECK(untouched());
}

static void test_begin(void)
{
    for (size_t n = 0; n <= LONGEST; n++) {
        size_t expected = n < 6 ? 0 : n - 6;
        tanglepunt_number place = tanglepunt_checked_begin(now.file, n);
        CHECK(tanglepunt_begin(now.file, n) == expected && place.refused == 0 && place.number == expected);
    }
}

/* ---- The writer. */

static void check_written(tanglepunt_board board, size_t room, int refused)
{
    place_file(EXAMPLE, sizeof EXAMPLE);
    tanglepunt_number written = by->write(board, now.written, room);
    CHECK(written.refused == refused && written.number == (refused ? 0 : sizeof EXAMPLE));
    if (!refused)
        memcpy(before.written, EXAMPLE, sizeof EXAMPLE);
    CHECK(untouched());
}

/* Mends a board one fault at a time, in the order in which the writer tests. */
static void test_write_order(void)
{
    tanglepunt_board b = example_board();
    b.cells = UINT64_MAX;
    b.lines[0].len = UINT64_MAX;
    b.lines[0].low = UINT64_MAX;
    b.lines[0].names[0] = UINT64_MAX;
    b.lines[0].names[1] = 0;
    b.lines[1].len = 0;
    AT(check_written(b, 35, 8));
    b.cells = 3;
    AT(check_written(b, 35, 1));
    b.lines[0].len = 2;
    AT(check_written(b, 35, 2));
    b.lines[0].low = 3;
    AT(check_written(b, 35, 11));
    b.lines[0].names[0] = 0;
    AT(check_written(b, 35, 12));
    b.lines[0].names[1] = 1;
    AT(check_written(b, 35, 1));
    b.lines[1].len = 2;
    AT(check_written(b, 35, 14));
    AT(check_written(b, 36, 0));
}

static void test_write(void)
{
    tanglepunt_board b = example_board();
    AT(check_written(b, 0, 14));
    AT(check_written(b, 36, 0));
    AT(check_written(b, LONGEST + SPARE, 0));
    memset(&b.domains[3], 0x77, sizeof b.domains - 3 * sizeof *b.domains); /* spare places don't matter */
    memset(&b.lines[2], 0x77, sizeof b.lines - 2 * sizeof *b.lines);
    memset(&b.lines[1].names[2], 0x77, 8 * sizeof *b.lines[1].names);
    AT(check_written(b, 36, 0));
    b.rows = 33;
    AT(check_written(b, 36, 8));
    b.rows = 0;
    AT(check_written(b, 36, 8));
    b = example_board();
    b.cells = 65;
    AT(check_written(b, 36, 8));
    b = example_board();
    b.lines[1].high = 512;
    AT(check_written(b, 36, 2));
    b = example_board();
    b.lines[1].len = 11;
    AT(check_written(b, 36, 1));
    b = example_board();
    b.lines[1].names[1] = 3;
    AT(check_written(b, 36, 11));
}

/* The longest file there is: 64 cells, 32 rows of 10. There and back by both calls. */
static void test_longest(void)
{
    tanglepunt_board b;
    memset(&b, 0, sizeof b);
    b.cells = 64;
    b.rows = 32;
    for (uint64_t cell = 0; cell < 64; cell++)
        b.domains[cell] = FULL - (uint32_t)cell;
    for (uint64_t k = 0; k < 32; k++) {
        b.lines[k].len = 10;
        b.lines[k].low = k;
        b.lines[k].high = 511 - k;
        for (uint64_t p = 0; p < 10; p++) {
            b.lines[k].names[p] = (k + 7 * p) % 64;
            b.lines[k].weights[p] = (uint8_t)(255 - k * p % 256);
        }
    }
    place_file(EXAMPLE, 0);
    CHECK(by->write(b, now.file, LONGEST - 1).refused == 14 && untouched());
    tanglepunt_number written = by->write(b, now.file, LONGEST);
    CHECK(written.refused == 0 && written.number == LONGEST);
    tanglepunt_reading reading = by->read(now.file, LONGEST);
    CHECK(reading.refused == 0 && same_places(&reading.board, &b));
    written = by->write(reading.board, now.written, LONGEST + SPARE);
    CHECK(written.number == LONGEST && memcmp(now.written, now.file, LONGEST) == 0);
    CHECK(now.written[LONGEST] == 0xA5);
}

/* ---- Advice. */

/* The board's file is written; its length. */
static size_t place_board(tanglepunt_board board)
{
    place_file(EXAMPLE, 0);
    size_t n = by->write(board, now.file, LONGEST).number;
    keep();
    return n;
}

/* What a board call leaves: these domains at the front of the room, zeros in the tables. */
static void expect_left(const uint32_t *domains, size_t cells)
{
    memcpy(before.room, domains, cells * sizeof *domains);
    memset(before.forward, 0, TABLE * sizeof *before.forward);
    memset(before.backward, 0, TABLE * sizeof *before.backward);
}

static tanglepunt_advice advise_board(tanglepunt_board board, const uint32_t *settled)
{
    size_t n = place_board(board);
    tanglepunt_advice advice = by->advise(now.file, n, now.room, ROOM, now.forward, TABLE + SPARE, now.backward, TABLE);
    expect_left(settled, board.cells);
    CHECK(advice.refused == 0 && untouched());
    return advice;
}

static tanglepunt_board one_row(size_t cells, const uint32_t *domains, tanglepunt_row line)
{
    tanglepunt_board b;
    memset(&b, 0, sizeof b);
    b.cells = cells;
    b.rows = 1;
    memcpy(b.domains, domains, cells * sizeof *domains);
    b.lines[0] = line;
    return b;
}

static void check_tally(tanglepunt_advice a, int kind, uint64_t passes, uint64_t struck)
{
    CHECK(a.kind == kind && a.passes == passes && a.struck == struck);
    if (kind != TANGLEPUNT_ADVISE)
        CHECK(a.cell == 0 && a.value == 0 && a.row == 0 && a.count == 0 && a.total == 0 && a.share == 0.0);
}

static void check_move(tanglepunt_advice a, uint64_t cell, uint64_t value, uint64_t line, uint64_t count, uint64_t total)
{
    CHECK(a.cell == cell && a.value == value && a.row == line && a.count == count && a.total == total);
    CHECK(a.share == (double)count / (double)total);
}

static void test_advise(void)
{
    /* document 01's report */
    tanglepunt_advice a = advise_board(example_board(), (const uint32_t[]){0x6, 0x6, 0x8});
    AT(check_tally(a, TANGLEPUNT_ADVISE, 2, 4));
    AT(check_move(a, 0, 1, 0, 1, 2));
    /* the Figure row alone: its last cell, value 1, 11 of 22 */
    const tanglepunt_row figure = {4, 5, 8, {0, 1, 2, 3}, {3, 1, 2, 1}};
    a = advise_board(one_row(4, FIGURE.domains, figure), FIGURE.domains);
    AT(check_tally(a, TANGLEPUNT_ADVISE, 1, 0));
    AT(check_move(a, 3, 1, 0, 11, 22));
    /* P8's row has total 0, which empties its cells in the first pass; the second strikes nothing */
    a = advise_board(one_row(2, (const uint32_t[]){0xF, 0xF}, (tanglepunt_row){2, 5, 5, {0, 1}, {2, 2}}),
                     (const uint32_t[]){0, 0});
    AT(check_tally(a, TANGLEPUNT_DEAD, 2, 8));
    /* P9's row leaves one value; a cell in no row keeps its two */
    a = advise_board(one_row(2, (const uint32_t[]){0xC, 0x3}, (tanglepunt_row){1, 510, 511, {0}, {255}}),
                     (const uint32_t[]){0x4, 0x3});
    AT(check_tally(a, TANGLEPUNT_SETTLED, 2, 1));
    /* an empty domain in no row */
    a = advise_board(one_row(2, (const uint32_t[]){0x3, 0}, (tanglepunt_row){1, 0, 511, {0}, {1}}),
                     (const uint32_t[]){0x3, 0});
    AT(check_tally(a, TANGLEPUNT_DEAD, 1, 0));
}

static void test_advise_refusals(void)
{
    static const struct {
        size_t file, room, forward, backward;
        int refused;
    } cases[] = {
        {5, ROOM - 1, TABLE - 1, TABLE - 1, 3}, {5, ROOM - 1, TABLE, TABLE - 1, 3}, {5, ROOM - 1, TABLE - 1, TABLE, 3},
        {5, ROOM - 1, TABLE, TABLE, 13},        {5, ROOM, TABLE, TABLE, 6},         {36, ROOM - 1, TABLE, TABLE, 13},
        {36, 0, TABLE, TABLE, 13},              {36, ROOM, 0, TABLE, 3},            {36, ROOM, TABLE, 0, 3},
    };
    place_file(EXAMPLE, sizeof EXAMPLE);
    for (size_t k = 0; k < sizeof cases / sizeof *cases; k++) {
        in_case = k;
        tanglepunt_advice a = by->advise(now.file, cases[k].file, now.room, cases[k].room, now.forward,
                                         cases[k].forward, now.backward, cases[k].backward);
        CHECK(a.refused == cases[k].refused && untouched());
        check_tally(a, 0, 0, 0);
    }
}

/* ---- Searching. */

/* A board finished with so many choices: how it ends, how many are left, and the domains at the front of the room. */
static void check_ending(tanglepunt_board board, uint64_t given, int ending, uint64_t left, const uint32_t *domains)
{
    size_t n = place_board(board);
    now.choices = given;
    tanglepunt_ending e = by->search(now.file, n, &now.choices, now.room, ROOM + SPARE, now.stack, STACK + SPARE,
                                     now.forward, TABLE, now.backward, TABLE + SPARE);
    expect_left(domains, board.cells);
    memset(before.stack, 0, STACK * sizeof *before.stack);
    before.choices = left;
    CHECK(e.refused == 0 && e.ending == ending && untouched());
}

/* A board whose search needs so many choices: with none, one fewer, exactly enough, one more, and the largest number. */
static void check_search(tanglepunt_board board, uint64_t needs, int ending, const uint32_t *settled,
                         const uint32_t *found)
{
    const uint64_t numbers[] = {0, needs - 1, needs, needs + 1, UINT64_MAX}; /* one below 0 is the largest, too */
    for (size_t k = 0; k < sizeof numbers / sizeof *numbers; k++)
        if (numbers[k] < needs)
            check_ending(board, numbers[k], TANGLEPUNT_SPENT, 0, settled);
        else
            check_ending(board, numbers[k], ending, numbers[k] - needs, found);
}

static void test_search(void)
{
    /* document 01's board: its advice, cell 0 value 1, is a filling's */
    AT(check_search(example_board(), 1, TANGLEPUNT_SOLVED, (const uint32_t[]){0x6, 0x6, 0x8},
                    (const uint32_t[]){0x2, 0x4, 0x8}));
    /* P9's row leaves one value; a cell in no row takes its lowest */
    AT(check_search(one_row(2, (const uint32_t[]){0xC, 0x6}, (tanglepunt_row){1, 510, 511, {0}, {255}}), 0,
                    TANGLEPUNT_SOLVED, (const uint32_t[]){0x4, 0x6}, (const uint32_t[]){0x4, 0x2}));
    /* P8's row has total 0 */
    AT(check_search(one_row(2, (const uint32_t[]){0xF, 0xF}, (tanglepunt_row){2, 5, 5, {0, 1}, {2, 2}}), 0,
                    TANGLEPUNT_NONE, (const uint32_t[]){0, 0}, (const uint32_t[]){0, 0}));
    /* goes back: the advice, cell 2 value 0, 5 of 8, asks for 3 of the other two in row 0, for at most 2 in row 1 */
    tanglepunt_board b = one_row(3, (const uint32_t[]){0x7, 0x7, 0x3}, (tanglepunt_row){3, 3, 3, {0, 1, 2}, {1, 1, 2}});
    b.rows = 2;
    b.lines[1] = (tanglepunt_row){3, 1, 2, {0, 1, 2}, {1, 1, 1}};
    AT(check_search(b, 2, TANGLEPUNT_SOLVED, b.domains, (const uint32_t[]){0x1, 0x2, 0x2}));
    /* three cells of 0 and 1, any two with sum 1: no row sees that there is no filling */
    b = one_row(3, (const uint32_t[]){0x3, 0x3, 0x3}, (tanglepunt_row){2, 1, 1, {0, 1}, {1, 1}});
    b.rows = 3;
    b.lines[1] = (tanglepunt_row){2, 1, 1, {1, 2}, {1, 1}};
    b.lines[2] = (tanglepunt_row){2, 1, 1, {0, 2}, {1, 1}};
    AT(check_search(b, 1, TANGLEPUNT_NONE, b.domains, b.domains));
}

/* A search's pointers and numbers of entries. */
typedef struct {
    const uint8_t *file;
    size_t n_file;
    uint64_t *choices;
    uint32_t *room;
    size_t n_room;
    uint32_t *stack;
    size_t n_stack;
    uint64_t *forward;
    size_t n_forward;
    uint64_t *backward;
    size_t n_backward;
} search_lent;

#define SEARCH_LENT                                                                                                    \
    {now.file, sizeof EXAMPLE, &now.choices, now.room, ROOM, now.stack, STACK, now.forward, TABLE, now.backward, TABLE}

/* What a search of the example in these rooms says: Solved, or a number for no. */
static void check_search_lent(search_lent l, int refused)
{
    place_file(EXAMPLE, sizeof EXAMPLE);
    tanglepunt_ending e = by->search(l.file, l.n_file, l.choices, l.room, l.n_room, l.stack, l.n_stack, l.forward,
                                     l.n_forward, l.backward, l.n_backward);
    CHECK(e.refused == refused && e.ending == TANGLEPUNT_SOLVED);
    CHECK(untouched() == (refused != 0));
}

/* The default with one change made to it. */
#define CHECK_SEARCH_LENT(change, refused)                                                                             \
    do {                                                                                                               \
        search_lent l = SEARCH_LENT;                                                                                   \
        change;                                                                                                        \
        AT(check_search_lent(l, refused));                                                                             \
    } while (0)

static void test_search_refusals(void)
{
    /* in order: all wrong, then one less */
    search_lent wrong = {now.file, 5, &now.choices, now.room, ROOM - 1, now.stack, STACK - 1, now.forward, TABLE - 1,
                         now.backward, TABLE - 1};
    AT(check_search_lent(wrong, 3));
    wrong.n_forward = TABLE;
    AT(check_search_lent(wrong, 3));
    wrong.n_backward = TABLE;
    AT(check_search_lent(wrong, 13));
    wrong.n_room = ROOM;
    AT(check_search_lent(wrong, 15));
    wrong.n_stack = STACK;
    AT(check_search_lent(wrong, 6));
    wrong.n_file = sizeof EXAMPLE;
    AT(check_search_lent(wrong, 0));
    /* each alone, at its edge and empty */
    CHECK_SEARCH_LENT(l.n_forward = TABLE - 1, 3);
    CHECK_SEARCH_LENT(l.n_forward = 0, 3);
    CHECK_SEARCH_LENT(l.n_backward = TABLE - 1, 3);
    CHECK_SEARCH_LENT(l.n_backward = 0, 3);
    CHECK_SEARCH_LENT(l.n_room = ROOM - 1, 13);
    CHECK_SEARCH_LENT(l.n_room = 0, 13);
    CHECK_SEARCH_LENT(l.n_stack = STACK - 1, 15);
    CHECK_SEARCH_LENT(l.n_stack = 0, 15);
    CHECK_SEARCH_LENT(l.n_stack = STACK + SPARE, 0);
    CHECK_SEARCH_LENT(l.n_file = sizeof EXAMPLE - 1, 7);
}

/* ---- What only the checked calls test. */

/* A row call's pointers and numbers of entries. */
typedef struct {
    const uint8_t *weights;
    size_t n_weights;
    uint32_t *domains;
    size_t n_domains;
    uint64_t *forward;
    size_t n_forward;
    uint64_t *backward;
    size_t n_backward;
} lent;

/* What each row call says of the Figure row in these rooms: strike alone writes the domains, so it may say another. */
static void check_lent(lent l, int refused, int struck_refused)
{
    place_row(&FIGURE);
    tanglepunt_number a = tanglepunt_checked_total(l.weights, l.n_weights, l.domains, l.n_domains, 5, 8, l.forward,
                                                   l.n_forward, l.backward, l.n_backward);
    check_number(a, refused);
    place_row(&FIGURE);
    a = tanglepunt_checked_count(l.weights, l.n_weights, l.domains, l.n_domains, 5, 8, 0, 0, l.forward, l.n_forward,
                                 l.backward, l.n_backward);
    check_number(a, refused);
    place_row(&FIGURE);
    a = tanglepunt_checked_strike(l.weights, l.n_weights, l.domains, l.n_domains, 5, 8, l.forward, l.n_forward,
                                  l.backward, l.n_backward);
    check_number(a, struck_refused);
}

static void *moved(void *at, size_t bytes)
{
    return (uint8_t *)at + bytes;
}

#define LENT {now.weights, 4, now.domains, 4, now.forward, TABLE, now.backward, TABLE}

/* The default with one change made to it. */
#define CHECK_LENT(change, refused, struck_refused)                                                                    \
    do {                                                                                                               \
        lent l = LENT;                                                                                                 \
        change;                                                                                                        \
        AT(check_lent(l, refused, struck_refused));                                                                    \
    } while (0)

static void test_row_pointers(void)
{
    const int no = TANGLEPUNT_UNLENDABLE;
    CHECK_LENT((void)0, 0, 0);
    /* null: with entries, and empty, which has document 01's number */
    CHECK_LENT(l.weights = NULL, no, no);
    CHECK_LENT(l.domains = NULL, no, no);
    CHECK_LENT(l.forward = NULL, no, no);
    CHECK_LENT(l.backward = NULL, no, no);
    CHECK_LENT((l.weights = NULL, l.n_weights = 0), 1, 1);
    CHECK_LENT((l.weights = NULL, l.n_weights = 0, l.domains = NULL, l.n_domains = 0), 1, 1);
    CHECK_LENT((l.forward = NULL, l.n_forward = 0), 3, 3);
    CHECK_LENT((l.backward = NULL, l.n_backward = 0), 3, 3);
    /* misaligned */
    CHECK_LENT(l.domains = moved(now.domains, 2), no, no);
    CHECK_LENT(l.forward = moved(now.forward, 4), no, no);
    CHECK_LENT(l.backward = moved(now.backward, 1), no, no);
    CHECK_LENT((l.forward = moved(now.forward, 4), l.n_forward = 0), 3, 3);
    /* more entries than fit into memory */
    CHECK_LENT(l.n_weights = SIZE_MAX, no, no);
    CHECK_LENT(l.n_domains = SIZE_MAX / 4, no, no);
    CHECK_LENT(l.n_forward = SIZE_MAX / 8 + 2, no, no); /* 8 bytes, if the product is let wrap */
    CHECK_LENT(l.n_backward = (SIZE_MAX - (uintptr_t)now.backward) / 8 + 1, no, no);
    /* the same room twice, overlapping by an entry, and side by side */
    CHECK_LENT(l.backward = now.forward, no, no);
    CHECK_LENT(l.backward = now.forward + TABLE - 1, no, no);
    CHECK_LENT((l.backward = now.forward, l.forward = now.forward + TABLE - 1), no, no);
    CHECK_LENT((l.n_forward = TABLE + SPARE + 1), no, no);
    CHECK_LENT((l.n_forward = TABLE + SPARE), 0, 0);
    CHECK_LENT((l.backward = now.forward + 1, l.n_backward = 0), 3, 3);
    /* a table over an input; a strike's domains over its weights, which the other calls only read */
    CHECK_LENT(l.weights = (uint8_t *)(now.forward + 5), no, no);
    CHECK_LENT(l.domains = (uint32_t *)(now.backward + 5), no, no);
    CHECK_LENT(l.weights = (uint8_t *)now.domains, 0, no);
}

static void check_file_pointer(const uint8_t *file, size_t n, int refused)
{
    tanglepunt_number begun = tanglepunt_checked_begin(file, n);
    CHECK(begun.refused == (refused == TANGLEPUNT_UNLENDABLE ? refused : 0) && begun.number == 0);
    by = &FACES[1];
    check_read(by->read(file, n), refused);
    check_read(by->read_at(file, n, 0), refused);
    tanglepunt_counts counts = by->board_counts(file, n);
    CHECK(counts.refused == refused && counts.cells == 0 && counts.rows == 0);
    tanglepunt_advice advice = by->advise(file, n, now.room, ROOM, now.forward, TABLE, now.backward, TABLE);
    CHECK(advice.refused == refused && untouched());
    tanglepunt_ending ending = by->search(file, n, &now.choices, now.room, ROOM, now.stack, STACK, now.forward, TABLE,
                                          now.backward, TABLE);
    CHECK(ending.refused == refused && untouched());
}

static void check_advise(uint32_t *room, size_t n_room, uint64_t *forward, uint64_t *backward, size_t n, int refused)
{
    place_file(EXAMPLE, sizeof EXAMPLE);
    tanglepunt_advice a = tanglepunt_checked_advise(now.file, sizeof EXAMPLE, room, n_room, forward, n, backward, n);
    CHECK(a.refused == refused);
    if (refused) {
        check_tally(a, 0, 0, 0);
        CHECK(untouched());
    }
}

static void test_file_pointers(void)
{
    const int no = TANGLEPUNT_UNLENDABLE;
    place_file(EXAMPLE, sizeof EXAMPLE);
    AT(check_file_pointer(NULL, 36, no));
    AT(check_file_pointer(now.file, SIZE_MAX, no));
    AT(check_file_pointer((const uint8_t *)(UINTPTR_MAX - 9), 36, no));
    AT(check_file_pointer(NULL, 0, 6));

    const tanglepunt_board board = example_board();
    CHECK(tanglepunt_checked_write(board, NULL, 36).refused == no);
    CHECK(tanglepunt_checked_write(board, NULL, 0).refused == 14);
    CHECK(tanglepunt_checked_write(board, now.written, SIZE_MAX).refused == no && untouched());

    AT(check_advise(now.room, ROOM, now.forward, now.backward, TABLE, 0));
    AT(check_advise(NULL, ROOM, now.forward, now.backward, TABLE, no));
    AT(check_advise(NULL, 0, now.forward, now.backward, TABLE, 13));
    AT(check_advise(now.room, ROOM, NULL, now.backward, TABLE, no));
    AT(check_advise(now.room, ROOM, NULL, NULL, 0, 3));
    AT(check_advise(moved(now.room, 2), ROOM, now.forward, now.backward, TABLE, no));
    AT(check_advise(now.room, ROOM, moved(now.forward, 4), now.backward, TABLE, no));
    AT(check_advise(now.room, ROOM, now.forward, now.forward, TABLE, no));
    AT(check_advise((uint32_t *)now.forward, ROOM, now.forward, now.backward, TABLE, no));
    AT(check_advise((uint32_t *)now.backward, ROOM, now.forward, now.backward, TABLE, no));
    AT(check_advise(now.room, 2 * ROOM, now.forward, now.backward, TABLE, no)); /* runs into the file */
}

static void test_search_pointers(void)
{
    const int no = TANGLEPUNT_UNLENDABLE;
    by = &FACES[1];
    CHECK_SEARCH_LENT((void)0, 0);
    /* null: with entries, and empty, which has its own number */
    CHECK_SEARCH_LENT(l.choices = NULL, no);
    CHECK_SEARCH_LENT(l.room = NULL, no);
    CHECK_SEARCH_LENT(l.stack = NULL, no);
    CHECK_SEARCH_LENT(l.forward = NULL, no);
    CHECK_SEARCH_LENT(l.backward = NULL, no);
    CHECK_SEARCH_LENT((l.room = NULL, l.n_room = 0), 13);
    CHECK_SEARCH_LENT((l.stack = NULL, l.n_stack = 0), 15);
    CHECK_SEARCH_LENT((l.forward = NULL, l.n_forward = 0), 3);
    CHECK_SEARCH_LENT((l.backward = NULL, l.n_backward = 0), 3);
    /* misaligned */
    CHECK_SEARCH_LENT(l.choices = moved(&now.choices, 4), no);
    CHECK_SEARCH_LENT(l.room = moved(now.room, 2), no);
    CHECK_SEARCH_LENT(l.stack = moved(now.stack, 1), no);
    CHECK_SEARCH_LENT(l.forward = moved(now.forward, 4), no);
    CHECK_SEARCH_LENT(l.backward = moved(now.backward, 2), no);
    /* more entries than fit into memory */
    CHECK_SEARCH_LENT(l.n_room = SIZE_MAX, no);
    CHECK_SEARCH_LENT(l.n_stack = SIZE_MAX / 4 + 2, no); /* 4 bytes, if the product is let wrap */
    CHECK_SEARCH_LENT(l.choices = (uint64_t *)(UINTPTR_MAX - 7), no);
    /* rooms that overlap, by an entry or all of the shorter, and side by side */
    CHECK_SEARCH_LENT(l.backward = now.forward, no);
    CHECK_SEARCH_LENT(l.stack = (uint32_t *)now.forward, no);
    CHECK_SEARCH_LENT(l.stack = (uint32_t *)now.backward, no);
    CHECK_SEARCH_LENT(l.room = (uint32_t *)now.forward, no);
    CHECK_SEARCH_LENT(l.room = (uint32_t *)now.backward, no);
    CHECK_SEARCH_LENT(l.room = now.stack + STACK - 1, no);
    CHECK_SEARCH_LENT(l.room = now.stack + STACK, 0);
    CHECK_SEARCH_LENT(l.n_stack = STACK + SPARE + 1, no);
    /* a room over the file, by the room's last byte */
    CHECK_SEARCH_LENT(l.file = (uint8_t *)(now.room + ROOM) - 1, no);
    CHECK_SEARCH_LENT(l.file = (uint8_t *)(now.stack + STACK) - 1, no);
    CHECK_SEARCH_LENT(l.file = (uint8_t *)(now.forward + TABLE) - 1, no);
    CHECK_SEARCH_LENT(l.file = (uint8_t *)(now.backward + TABLE) - 1, no);
    /* the number of choices in a room or the file, beside one, and where an empty one starts */
    CHECK_SEARCH_LENT(l.choices = (uint64_t *)(now.room + ROOM - 2), no);
    CHECK_SEARCH_LENT(l.choices = (uint64_t *)(now.room + ROOM), 0);
    CHECK_SEARCH_LENT(l.choices = (uint64_t *)(now.stack + STACK - 2), no);
    CHECK_SEARCH_LENT(l.choices = (uint64_t *)(now.stack + STACK), 0);
    CHECK_SEARCH_LENT(l.choices = now.forward + TABLE - 1, no);
    CHECK_SEARCH_LENT(l.choices = now.forward + TABLE, 0);
    CHECK_SEARCH_LENT(l.choices = now.backward + TABLE - 1, no);
    CHECK_SEARCH_LENT(l.n_backward = TABLE + SPARE, 0);
    CHECK_SEARCH_LENT(l.n_backward = TABLE + SPARE + 1, no);
    CHECK_SEARCH_LENT(l.file = (uint8_t *)&now.choices + 7, no);
    CHECK_SEARCH_LENT((l.stack = (uint32_t *)&now.choices, l.n_stack = 0), 15);
}

int main(void)
{
    test_rank();
    test_begin();
    for (by = FACES; by < FACES + 2; by++) {
        test_examples();
        test_rows();
        test_row_refusals();
        test_file_refusals();
        test_read();
        test_write_order();
        test_write();
        test_longest();
        test_advise();
        test_advise_refusals();
        test_search();
        test_search_refusals();
    }
    test_row_pointers();
    test_file_pointers();
    test_search_pointers();
    printf("C: %lu checks\n", checks);
    return 0;
}
