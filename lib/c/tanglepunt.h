/*
 * Tanglepunt for C11 and C++17 on x86-64: counts the good fillings of weighted rows, strikes values that no good
 * filling uses, settles boards, advises a move, finishes boards by search, reads and writes board files. docs/LIBRARY.md
 * says how to build and link.
 *
 * Calls that take pointers stand here twice.
 *
 * tanglepunt_NAME is the proved export. It answers every input as its comment says, but what a pointer is it can't test.
 * Its caller owes pointers that are not null and are aligned for their entries, also where there are 0 entries; numbers of
 * entries that are true; and lent room, which is what the call writes, that overlaps no other room and no input. A number
 * that is lent, as the choices of a search, is room of one entry.
 *
 * tanglepunt_checked_NAME takes the same arguments and tests what can be tested of that, before anything else. It answers
 * 255, TANGLEPUNT_UNLENDABLE, and touches nothing where a pointer to entries is null or misaligned, where so many entries
 * don't fit into memory from there, or where lent room overlaps other room or an input: the same room lent twice is one
 * case. An empty slice may come with any pointer, null too. Then it makes the proved call, so room of the wrong size gets
 * that call's number. Only numbers of entries that are true are still owed.
 */
#ifndef TANGLEPUNT_H
#define TANGLEPUNT_H

#include <assert.h>
#include <stddef.h>
#include <stdint.h>
#include <string.h>

/* Sizes. */
#define TANGLEPUNT_ROW_CELLS 10   /* the most cells in a row */
#define TANGLEPUNT_VALUES 32      /* a value is below this: bit v of a domain is set when v is listed */
#define TANGLEPUNT_SUMS 512       /* low and high are below this: entries in a layer of a table */
#define TANGLEPUNT_TABLE 5632     /* the fewest entries of a table */
#define TANGLEPUNT_BOARD_CELLS 64 /* the most cells on a board */
#define TANGLEPUNT_BOARD_ROWS 32  /* the most rows on a board */
#define TANGLEPUNT_ROOM 64        /* the fewest entries of domain room */
#define TANGLEPUNT_STACK 4096     /* the fewest entries of a search's stack room */
#define TANGLEPUNT_FILE 1062      /* the most bytes of a board file: room for every file */

/* The number for no, in the field `refused` of an answer; 0 where the call isn't refused. Each is given exactly when: */
enum {
    TANGLEPUNT_NO_LENGTH = 1,       /* row length 0 or above 10, or the two lists differ in length */
    TANGLEPUNT_NO_LIMITS = 2,       /* low above high, or high above 511 */
    TANGLEPUNT_NO_TABLE = 3,        /* a table has fewer than 5,632 entries */
    TANGLEPUNT_NO_PLACE = 4,        /* the place asked for isn't in the row, or the value is above 31 */
    TANGLEPUNT_NO_FRACTION = 5,     /* a fraction's total is 0 */
    TANGLEPUNT_NO_SIZE = 6,         /* file below 6 or above 1,062 bytes */
    TANGLEPUNT_NO_MARK = 7,         /* mark wrong */
    TANGLEPUNT_NO_COUNTS = 8,       /* cells or rows outside the sizes above */
    TANGLEPUNT_NO_START = 9,        /* start isn't four times the cells, or lies past the trailer */
    TANGLEPUNT_NO_END = 10,         /* a row runs into the trailer, or bytes are left over */
    TANGLEPUNT_NO_CELL = 11,        /* a row names a cell that the board hasn't */
    TANGLEPUNT_NO_TWICE = 12,       /* a row names a cell twice */
    TANGLEPUNT_NO_ROOM = 13,        /* domain room below 64 entries */
    TANGLEPUNT_NO_WRITER_ROOM = 14, /* writer's room shorter than the file */
    TANGLEPUNT_NO_STACK = 15,       /* stack room below 4,096 entries */
    TANGLEPUNT_UNLENDABLE = 255     /* no number of documents 01 and 02: a checked call's, said above */
};

/* How two fractions stand: the first is .. the second. */
enum { TANGLEPUNT_BELOW = 0, TANGLEPUNT_EQUAL = 1, TANGLEPUNT_ABOVE = 2 };

/* Which advice: some domain is empty; no cell that stands in a row has two or more values; a move. */
enum { TANGLEPUNT_DEAD = 0, TANGLEPUNT_SETTLED = 1, TANGLEPUNT_ADVISE = 2 };

/* How a search ended: with a filling; the board has none; the search needs more choices than were given. */
enum { TANGLEPUNT_SOLVED = 0, TANGLEPUNT_NONE = 1, TANGLEPUNT_SPENT = 2 };

/* Answers. A field that the answer doesn't use is 0; after a refusal that is every field but `refused`. */
typedef struct {
    uint8_t refused;
    uint64_t number;
} tanglepunt_number;

typedef struct {
    uint8_t refused;
    uint8_t order;
} tanglepunt_order;

typedef struct {
    uint8_t refused;
    uint64_t cells, rows;
} tanglepunt_counts;

/* A row of a board: its first len places hold its cells' numbers and their weights, the others are spare. */
typedef struct {
    uint64_t len, low, high;
    uint64_t names[TANGLEPUNT_ROW_CELLS];
    uint8_t weights[TANGLEPUNT_ROW_CELLS];
} tanglepunt_row;

/* The record of a board: its first places hold domains, one per cell, and rows, in order; the others are spare. */
typedef struct {
    uint64_t cells;
    uint32_t domains[TANGLEPUNT_BOARD_CELLS];
    uint64_t rows;
    tanglepunt_row lines[TANGLEPUNT_BOARD_ROWS];
} tanglepunt_board;

typedef struct {
    uint8_t refused;
    tanglepunt_board board;
} tanglepunt_reading;

typedef struct {
    uint8_t refused;
    uint8_t kind;
    uint64_t passes, struck;                  /* of the settling; the last pass is counted */
    uint64_t cell, value, row, count, total;  /* of the move: 0 unless kind is TANGLEPUNT_ADVISE */
    double share;                             /* count divided by total, for display */
} tanglepunt_advice;

typedef struct {
    uint8_t refused;
    uint8_t ending;
} tanglepunt_ending;

static_assert(sizeof(size_t) == 8 && sizeof(tanglepunt_number) == 16 && sizeof(tanglepunt_order) == 2, "x86-64");
static_assert(sizeof(tanglepunt_row) == 120 && sizeof(tanglepunt_board) == 4112, "the library's record of a board");
static_assert(sizeof(tanglepunt_reading) == 4120 && sizeof(tanglepunt_advice) == 72 && sizeof(tanglepunt_ending) == 2,
              "the library's answers");

#ifdef __cplusplus
extern "C" {
#endif

/*
 * Ranks c1 / t1 against c2 / t2 as exact fractions, each any count and any total above 0: below, equal or above.
 * Refused: 5. It takes no pointer, so there is no checked call of it.
 */
tanglepunt_order tanglepunt_rank(uint64_t c1, uint64_t t1, uint64_t c2, uint64_t t2);

/*
 * Row calls take a row's weights and domains as two lists, its limits, and two lent tables. A filling takes one listed
 * value for each cell; it is good when the sum of weight times value is at least low and at most high. After success
 * entry 512 i + b of the tables holds, for i from 0 to the row's length and b from 0 to 511, the domains being those at
 * entry:
 * - forward, the number of ways to choose values for the first i cells with sum b;
 * - backward, the number of ways to choose the remaining cells so that b plus their sum lies from low to high.
 * Later entries are unchanged. A refusal leaves all room untouched.
 */

/* The total: the number of good fillings. Refused: 1, 2, 3, in this order. */
tanglepunt_number tanglepunt_total(const uint8_t *weights, size_t n_weights, const uint32_t *domains, size_t n_domains,
                                   uint64_t low, uint64_t high, uint64_t *forward, size_t n_forward,
                                   uint64_t *backward, size_t n_backward);

/*
 * The count of a place, from 0, and a value: the number of good fillings with that value in that cell; an unlisted value
 * counts 0. Refused: 1, 2, 3, 4, in this order.
 */
tanglepunt_number tanglepunt_count(const uint8_t *weights, size_t n_weights, const uint32_t *domains, size_t n_domains,
                                   uint64_t low, uint64_t high, uint64_t place, uint64_t value, uint64_t *forward,
                                   size_t n_forward, uint64_t *backward, size_t n_backward);

/*
 * Strikes from the row every value whose count is 0: writes the reduced domains over the lent ones and answers how many
 * values it struck. Refused: 1, 2, 3, in this order.
 */
tanglepunt_number tanglepunt_strike(const uint8_t *weights, size_t n_weights, uint32_t *domains, size_t n_domains,
                                    uint64_t low, uint64_t high, uint64_t *forward, size_t n_forward,
                                    uint64_t *backward, size_t n_backward);

/* Where a reader of the file begins: the place of the trailer, its last six bytes; 0 where it is shorter. Never refused. */
size_t tanglepunt_begin(const uint8_t *file, size_t n_file);

/*
 * The board that a file holds, spare places zero. A refused read's record is all zero. Refused, the file: 6, 7, 8, 9;
 * then for each row its five-byte head (10), 1, 2, its pairs fit (10), then for each pair 11, 12; at the end left-over
 * bytes (10).
 */
tanglepunt_reading tanglepunt_read(const uint8_t *file, size_t n_file);

/* Reads the file whose trailer starts at a place; past the last place for one, the whole file. Refused: as read. */
tanglepunt_reading tanglepunt_read_at(const uint8_t *file, size_t n_file, uint64_t place);

/* The numbers of cells and rows of the board that a file holds. Refused: as read. */
tanglepunt_counts tanglepunt_board_counts(const uint8_t *file, size_t n_file);

/*
 * Writes the file of a board record, with any numbers in it, at the front of the room and answers the file's length;
 * bytes past it are unchanged. Refused: 8, then each row 1, 2 and for each pair 11, 12, then 14; the room is untouched.
 */
tanglepunt_number tanglepunt_write(tanglepunt_board board, uint8_t *room, size_t n_room);

/*
 * Settles the board of a file, then answers with passes, struck and the first of these that applies:
 * - Dead: some domain on the board is empty.
 * - Settled: no cell that stands in a row has two or more values.
 * - Advise: of all triples of row, cell in it with two or more values left, and listed value, the one with the highest
 *   count over total; ties go to the lowest cell, then the lowest value, then the lowest row.
 * On success the first entries of the room hold the settled domains, one per cell, and the first 5,632 entries of each
 * table are zero; the rest is unchanged. Refused: 3, 13, then as read; all room is untouched.
 */
tanglepunt_advice tanglepunt_advise(const uint8_t *file, size_t n_file, uint32_t *room, size_t n_room,
                                    uint64_t *forward, size_t n_forward, uint64_t *backward, size_t n_backward);

/*
 * Finishes the board of a file: settles, follows the advice, settles again; when that branch holds no filling, removes the
 * advised value at that level and settles. Following advice once is one choice, and the number lent says how many are
 * allowed. Answers:
 * - Solved: the board has a filling. The first entries of the room hold it, one single-value domain per cell; a cell in no
 *   row takes its lowest value.
 * - None: it has none.
 * - Spent: this search needs more choices than were given. A higher number never alters a Solved or a None.
 * After None and Spent the first entries of the room hold the settled domains before any choice. The number lent ends as
 * what was given less the choices followed, which is 0 after Spent. The first 4,096 entries of the stack room and the
 * first 5,632 of each table are zero; the rest of all room is unchanged. Refused: 3, 13, 15, then as read; all room and
 * the number of choices are untouched.
 */
tanglepunt_ending tanglepunt_search(const uint8_t *file, size_t n_file, uint64_t *choices, uint32_t *room,
                                    size_t n_room, uint32_t *stack, size_t n_stack, uint64_t *forward,
                                    size_t n_forward, uint64_t *backward, size_t n_backward);

#ifdef __cplusplus
}
#endif

/* ---- The checked calls. Each answers as the call of its name, or 255; what serves them comes first. */

/* An input or a room: where it starts, how many entries it has, and the bytes of one, which is also their alignment. */
typedef struct {
    const void *at;
    size_t entries, size;
} tanglepunt_span;

/* Whether a pointer of so many entries can be one: an empty slice's is never used. */
static inline int tanglepunt_sound(tanglepunt_span s)
{
    uintptr_t at = (uintptr_t)s.at;
    return s.entries == 0
        || (at != 0 && at % s.size == 0 && s.entries <= PTRDIFF_MAX / s.size && s.entries * s.size <= UINTPTR_MAX - at);
}

/* Whether two sound spans share no byte. */
static inline int tanglepunt_apart(tanglepunt_span a, tanglepunt_span b)
{
    uintptr_t at_a = (uintptr_t)a.at, at_b = (uintptr_t)b.at;
    return a.entries == 0 || b.entries == 0 || at_a + a.entries * a.size <= at_b || at_b + b.entries * b.size <= at_a;
}

/* Whether the spans can be lent, of which the first are inputs, which may overlap each other, and the others room. */
static inline int tanglepunt_lendable(const tanglepunt_span *span, size_t spans, size_t inputs)
{
    for (size_t i = 0; i < spans; i++) {
        if (!tanglepunt_sound(span[i]))
            return 0;
        for (size_t j = 0; i >= inputs && j < i; j++)
            if (!tanglepunt_apart(span[i], span[j]))
                return 0;
    }
    return 1;
}

/* What an empty slice points at: aligned for every entry, and never read or written. */
static inline void *tanglepunt_nowhere(void)
{
    static uint64_t nowhere;
    return &nowhere;
}

/* A pointer and its number of entries: as a span, and as an export's two arguments. */
#define TANGLEPUNT_SPAN(p, n) {(p), (n), sizeof *(p)}
#define TANGLEPUNT_SLICE(type, p, n) ((n) > 0 ? (p) : (type *)tanglepunt_nowhere()), (n)

/* A row call's weights and its domains, of which so many are inputs, and its tables. */
static inline int tanglepunt_row_lendable(const uint8_t *weights, size_t n_weights, const uint32_t *domains,
                                          size_t n_domains, const uint64_t *forward, size_t n_forward,
                                          const uint64_t *backward, size_t n_backward, size_t inputs)
{
    const tanglepunt_span spans[] = {TANGLEPUNT_SPAN(weights, n_weights), TANGLEPUNT_SPAN(domains, n_domains),
                                     TANGLEPUNT_SPAN(forward, n_forward), TANGLEPUNT_SPAN(backward, n_backward)};
    return tanglepunt_lendable(spans, 4, inputs);
}

static inline int tanglepunt_bytes_lendable(const uint8_t *bytes, size_t n_bytes)
{
    const tanglepunt_span span = TANGLEPUNT_SPAN(bytes, n_bytes);
    return tanglepunt_lendable(&span, 1, 1);
}

static inline tanglepunt_number tanglepunt_no_number(void)
{
    const tanglepunt_number no = {TANGLEPUNT_UNLENDABLE, 0};
    return no;
}

static inline tanglepunt_reading tanglepunt_no_reading(void)
{
    tanglepunt_reading no;
    memset(&no, 0, sizeof no);
    no.refused = TANGLEPUNT_UNLENDABLE;
    return no;
}

static inline tanglepunt_number tanglepunt_checked_total(const uint8_t *weights, size_t n_weights,
                                                         const uint32_t *domains, size_t n_domains, uint64_t low,
                                                         uint64_t high, uint64_t *forward, size_t n_forward,
                                                         uint64_t *backward, size_t n_backward)
{
    if (!tanglepunt_row_lendable(weights, n_weights, domains, n_domains, forward, n_forward, backward, n_backward, 2))
        return tanglepunt_no_number();
    return tanglepunt_total(TANGLEPUNT_SLICE(const uint8_t, weights, n_weights),
                            TANGLEPUNT_SLICE(const uint32_t, domains, n_domains), low, high,
                            TANGLEPUNT_SLICE(uint64_t, forward, n_forward),
                            TANGLEPUNT_SLICE(uint64_t, backward, n_backward));
}

static inline tanglepunt_number tanglepunt_checked_count(const uint8_t *weights, size_t n_weights,
                                                         const uint32_t *domains, size_t n_domains, uint64_t low,
                                                         uint64_t high, uint64_t place, uint64_t value,
                                                         uint64_t *forward, size_t n_forward, uint64_t *backward,
                                                         size_t n_backward)
{
    if (!tanglepunt_row_lendable(weights, n_weights, domains, n_domains, forward, n_forward, backward, n_backward, 2))
        return tanglepunt_no_number();
    return tanglepunt_count(TANGLEPUNT_SLICE(const uint8_t, weights, n_weights),
                            TANGLEPUNT_SLICE(const uint32_t, domains, n_domains), low, high, place, value,
                            TANGLEPUNT_SLICE(uint64_t, forward, n_forward),
                            TANGLEPUNT_SLICE(uint64_t, backward, n_backward));
}

/* The domains are room here, not input. */
static inline tanglepunt_number tanglepunt_checked_strike(const uint8_t *weights, size_t n_weights, uint32_t *domains,
                                                          size_t n_domains, uint64_t low, uint64_t high,
                                                          uint64_t *forward, size_t n_forward, uint64_t *backward,
                                                          size_t n_backward)
{
    if (!tanglepunt_row_lendable(weights, n_weights, domains, n_domains, forward, n_forward, backward, n_backward, 1))
        return tanglepunt_no_number();
    return tanglepunt_strike(TANGLEPUNT_SLICE(const uint8_t, weights, n_weights),
                             TANGLEPUNT_SLICE(uint32_t, domains, n_domains), low, high,
                             TANGLEPUNT_SLICE(uint64_t, forward, n_forward),
                             TANGLEPUNT_SLICE(uint64_t, backward, n_backward));
}

/* The place is the answer's number, so that there is a field for 255. */
static inline tanglepunt_number tanglepunt_checked_begin(const uint8_t *file, size_t n_file)
{
    tanglepunt_number place = {0, 0};
    if (!tanglepunt_bytes_lendable(file, n_file))
        return tanglepunt_no_number();
    place.number = tanglepunt_begin(TANGLEPUNT_SLICE(const uint8_t, file, n_file));
    return place;
}

static inline tanglepunt_reading tanglepunt_checked_read(const uint8_t *file, size_t n_file)
{
    if (!tanglepunt_bytes_lendable(file, n_file))
        return tanglepunt_no_reading();
    return tanglepunt_read(TANGLEPUNT_SLICE(const uint8_t, file, n_file));
}

static inline tanglepunt_reading tanglepunt_checked_read_at(const uint8_t *file, size_t n_file, uint64_t place)
{
    if (!tanglepunt_bytes_lendable(file, n_file))
        return tanglepunt_no_reading();
    return tanglepunt_read_at(TANGLEPUNT_SLICE(const uint8_t, file, n_file), place);
}

static inline tanglepunt_counts tanglepunt_checked_board_counts(const uint8_t *file, size_t n_file)
{
    const tanglepunt_counts no = {TANGLEPUNT_UNLENDABLE, 0, 0};
    if (!tanglepunt_bytes_lendable(file, n_file))
        return no;
    return tanglepunt_board_counts(TANGLEPUNT_SLICE(const uint8_t, file, n_file));
}

/* The board goes by value, so it can't overlap the room. */
static inline tanglepunt_number tanglepunt_checked_write(tanglepunt_board board, uint8_t *room, size_t n_room)
{
    if (!tanglepunt_bytes_lendable(room, n_room))
        return tanglepunt_no_number();
    return tanglepunt_write(board, TANGLEPUNT_SLICE(uint8_t, room, n_room));
}

static inline tanglepunt_advice tanglepunt_checked_advise(const uint8_t *file, size_t n_file, uint32_t *room,
                                                          size_t n_room, uint64_t *forward, size_t n_forward,
                                                          uint64_t *backward, size_t n_backward)
{
    const tanglepunt_advice no = {TANGLEPUNT_UNLENDABLE, TANGLEPUNT_DEAD, 0, 0, 0, 0, 0, 0, 0, 0.0};
    const tanglepunt_span spans[] = {TANGLEPUNT_SPAN(file, n_file), TANGLEPUNT_SPAN(room, n_room),
                                     TANGLEPUNT_SPAN(forward, n_forward), TANGLEPUNT_SPAN(backward, n_backward)};
    if (!tanglepunt_lendable(spans, 4, 1))
        return no;
    return tanglepunt_advise(TANGLEPUNT_SLICE(const uint8_t, file, n_file), TANGLEPUNT_SLICE(uint32_t, room, n_room),
                             TANGLEPUNT_SLICE(uint64_t, forward, n_forward),
                             TANGLEPUNT_SLICE(uint64_t, backward, n_backward));
}

/* The number of choices is tested as room of one entry. */
static inline tanglepunt_ending tanglepunt_checked_search(const uint8_t *file, size_t n_file, uint64_t *choices,
                                                          uint32_t *room, size_t n_room, uint32_t *stack,
                                                          size_t n_stack, uint64_t *forward, size_t n_forward,
                                                          uint64_t *backward, size_t n_backward)
{
    const tanglepunt_ending no = {TANGLEPUNT_UNLENDABLE, TANGLEPUNT_SOLVED};
    const tanglepunt_span spans[] = {TANGLEPUNT_SPAN(file, n_file),       TANGLEPUNT_SPAN(choices, 1),
                                     TANGLEPUNT_SPAN(room, n_room),       TANGLEPUNT_SPAN(stack, n_stack),
                                     TANGLEPUNT_SPAN(forward, n_forward), TANGLEPUNT_SPAN(backward, n_backward)};
    if (!tanglepunt_lendable(spans, 6, 1))
        return no;
    return tanglepunt_search(TANGLEPUNT_SLICE(const uint8_t, file, n_file), choices,
                             TANGLEPUNT_SLICE(uint32_t, room, n_room), TANGLEPUNT_SLICE(uint32_t, stack, n_stack),
                             TANGLEPUNT_SLICE(uint64_t, forward, n_forward),
                             TANGLEPUNT_SLICE(uint64_t, backward, n_backward));
}

#undef TANGLEPUNT_SPAN
#undef TANGLEPUNT_SLICE

#endif
