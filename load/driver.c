/* Makes the calls of the load run: cases come in on standard input, each answer and every lent room go out on standard
 * output, and load/run compares them. Every slice stands where a step outside it shows (load/README.md says how).
 *
 * usage: driver [--wrong NAME]     NAME: a stand-in of this file that takes the place of tanglepunt_total
 *
 * Frames, all numbers low byte first: a length (4), then so many bytes. The first frame is the block that rooms are filled
 * from. Each other is a case: kind, how many numbers, how many slices (1 each); the numbers (8 each); for each slice its
 * side, whether it is lent for writing, whether it is filled from the block, bytes per entry (1 each), entries and place in
 * the block (4 each), and its bytes where they don't come from the block. An answer's frame has its fields in the struct's
 * order, then the bytes of the slices lent for writing. */
#define _GNU_SOURCE
#include "tanglepunt.h"
#include <sanitizer/asan_interface.h>
#include <stdio.h>
#include <stdlib.h>
#include <string.h>
#include <sys/mman.h>

enum { RANK, TOTAL, COUNT, STRIKE, BEGIN, READ, READ_AT, BOARD_COUNTS, WRITE, ADVISE, SEARCH };
enum { AT_END, AT_FRONT, OWN };                     /* where a slice stands in its arena, or a block of its own */
enum { OUTSIDE_CHANGED = 3, INPUT_CHANGED = 4, BAD_STREAM = 5 };
enum { SLICES = 6, NUMBERS = 6, CANARY = 4096, SPACE = 1 << 17, GUARD = 1 << 20, FRAME = 1 << 18 };

typedef struct {
    const uint8_t *held;                            /* what it holds before the call */
    size_t entries, bytes;
    int side, lent;
    void *at;
    uint8_t *outside;                               /* the canary beside it */
} slice;

typedef struct {
    int kind, slices;
    uint64_t numbers[NUMBERS];
    slice slice[SLICES];
} call;

static uint8_t block[1 << 16], canary[CANARY], frame[FRAME], answer[FRAME];
static uint8_t *arena[SLICES];
static size_t frame_bytes, taken, answer_bytes;

static _Noreturn void stop(int code, const char *what, int which)
{
    fprintf(stderr, "driver: %s %d\n", what, which);
    exit(code);
}

/* ---- where slices stand */

/* Each arena is readable and writable between two runs of pages that no access passes. */
static void make_arenas(void)
{
    for (int k = 0; k < SLICES; k++) {
        uint8_t *whole = mmap(NULL, GUARD + SPACE + GUARD, PROT_NONE, MAP_PRIVATE | MAP_ANONYMOUS, -1, 0);
        if (whole == MAP_FAILED || mprotect(whole + GUARD, SPACE, PROT_READ | PROT_WRITE) != 0)
            stop(BAD_STREAM, "no memory for arena", k);
        arena[k] = whole + GUARD;
    }
    for (int k = 0; k < CANARY; k++)
        canary[k] = (uint8_t)(k * 167 + 91);
}

static void put_in_place(slice *s, uint8_t *space)
{
    if (s->side == OWN) {
        s->at = malloc(s->bytes);
    } else {
        uint8_t *at = s->side == AT_END ? space + SPACE - s->bytes : space;
        s->at = at;
        s->outside = s->side == AT_END ? at - CANARY : at + s->bytes;
        memcpy(s->outside, canary, CANARY);
    }
    memcpy(s->at, s->held, s->bytes);
    if (s->side != OWN)
        ASAN_POISON_MEMORY_REGION(s->outside, CANARY);
}

static void look_around(const slice *s, uint8_t *space, int which)
{
    ASAN_UNPOISON_MEMORY_REGION(space, SPACE);
    if (s->side != OWN && memcmp(s->outside, canary, CANARY) != 0)
        stop(OUTSIDE_CHANGED, "changed outside slice", which);
    if (!s->lent && memcmp(s->at, s->held, s->bytes) != 0)
        stop(INPUT_CHANGED, "changed input slice", which);
}

/* ---- frames */

/* The next bytes of the frame. */
static const uint8_t *take(size_t bytes)
{
    if (bytes > frame_bytes - taken)
        stop(BAD_STREAM, "frame too short, of kind", frame[0]);
    taken += bytes;
    return frame + taken - bytes;
}

static uint64_t take_number(size_t bytes)
{
    uint64_t n = 0;
    memcpy(&n, take(bytes), bytes);
    return n;
}

static int next_frame(void)
{
    uint32_t length;
    if (fread(&length, sizeof length, 1, stdin) != 1)
        return 0;
    if (length > FRAME || fread(frame, 1, length, stdin) != length)
        stop(BAD_STREAM, "bad frame after bytes", (int)taken);
    frame_bytes = length;
    taken = 0;
    return 1;
}

static void take_slice(slice *s)
{
    s->side = (int)take_number(1);
    s->lent = (int)take_number(1);
    int from_block = (int)take_number(1);
    s->bytes = take_number(1);
    s->entries = take_number(4);
    s->bytes *= s->entries;
    size_t place = take_number(4);
    if (from_block && place + s->bytes > sizeof block)
        stop(BAD_STREAM, "room outside the block, at", (int)place);
    s->held = from_block ? block + place : take(s->bytes);
}

static void take_call(call *c)
{
    c->kind = (int)take_number(1);
    int numbers = (int)take_number(1);
    c->slices = (int)take_number(1);
    if (numbers > NUMBERS || c->slices > SLICES)
        stop(BAD_STREAM, "too many numbers or slices, kind", c->kind);
    for (int k = 0; k < numbers; k++)
        c->numbers[k] = take_number(8);
    for (int k = 0; k < c->slices; k++)
        take_slice(&c->slice[k]);
}

static void put(const void *from, size_t bytes)
{
    if (bytes > FRAME - answer_bytes)
        stop(BAD_STREAM, "answer too long, of bytes", (int)bytes);
    memcpy(answer + answer_bytes, from, bytes);
    answer_bytes += bytes;
}

static void put_number(uint64_t n, size_t bytes)
{
    put(&n, bytes);
}

/* ---- records and answers, field by field: padding is neither sent nor compared */

static tanglepunt_board take_board(const uint8_t *from)
{
    tanglepunt_board board;
    memset(&board, 0, sizeof board);
    memcpy(&board.cells, from, 8);
    memcpy(board.domains, from + 8, sizeof board.domains);
    memcpy(&board.rows, from + 264, 8);
    for (int k = 0; k < 32; k++)
        memcpy(&board.lines[k], from + 272 + 114 * k, 114);
    return board;
}

static void put_board(const tanglepunt_board *board)
{
    put_number(board->cells, 8);
    put(board->domains, sizeof board->domains);
    put_number(board->rows, 8);
    for (int k = 0; k < 32; k++)
        put(&board->lines[k], 114);
}

static void put_reading(tanglepunt_reading r)
{
    put_number(r.refused, 1);
    put_board(&r.board);
}

static void put_answer_number(tanglepunt_number r)
{
    put_number(r.refused, 1);
    put_number(r.number, 8);
}

static void put_order(tanglepunt_order r)
{
    put_number(r.refused, 1);
    put_number(r.order, 1);
}

static void put_counts(tanglepunt_counts r)
{
    put_number(r.refused, 1);
    put_number(r.cells, 8);
    put_number(r.rows, 8);
}

static void put_advice(tanglepunt_advice r)
{
    const uint64_t fields[] = {r.passes, r.struck, r.cell, r.value, r.row, r.count, r.total};
    put_number(r.refused, 1);
    put_number(r.kind, 1);
    put(fields, sizeof fields);
    put(&r.share, 8);
}

static void put_ending(tanglepunt_ending r)
{
    put_number(r.refused, 1);
    put_number(r.ending, 1);
}

/* ---- stand-ins for tanglepunt_total, each wrong in one way, not instrumented, as the archive isn't */

typedef tanglepunt_number total_call(const uint8_t *, size_t, const uint32_t *, size_t, uint64_t, uint64_t,
                                     uint64_t *, size_t, uint64_t *, size_t);
#define STAND_IN __attribute__((noinline, no_sanitize("address", "undefined"))) static tanglepunt_number
#define PARAMETERS const uint8_t *weights, size_t n_weights, const uint32_t *domains, size_t n_domains, uint64_t low, \
                   uint64_t high, uint64_t *forward, size_t n_forward, uint64_t *backward, size_t n_backward
#define ARGUMENTS weights, n_weights, domains, n_domains, low, high, forward, n_forward, backward, n_backward

STAND_IN write_past(PARAMETERS)
{
    *(volatile uint64_t *)(forward + n_forward) = 1;
    return tanglepunt_total(ARGUMENTS);
}

STAND_IN write_before(PARAMETERS)
{
    *(volatile uint64_t *)(forward - 1) = 1;
    return tanglepunt_total(ARGUMENTS);
}

STAND_IN read_past(PARAMETERS)
{
    (void)*(volatile uint64_t *)(forward + n_forward);
    return tanglepunt_total(ARGUMENTS);
}

STAND_IN read_before(PARAMETERS)
{
    (void)*(volatile uint64_t *)(forward - 1);
    return tanglepunt_total(ARGUMENTS);
}

STAND_IN clear_past(PARAMETERS)
{
    memset(forward, 0, 8 * (n_forward + 1));
    return tanglepunt_total(ARGUMENTS);
}

STAND_IN input_changed(PARAMETERS)
{
    tanglepunt_number r = tanglepunt_total(ARGUMENTS);
    *(volatile uint8_t *)(uintptr_t)weights ^= 1;
    return r;
}

STAND_IN one_too_many(PARAMETERS)
{
    tanglepunt_number r = tanglepunt_total(ARGUMENTS);
    r.number++;
    return r;
}

STAND_IN last_entry_changed(PARAMETERS)
{
    tanglepunt_number r = tanglepunt_total(ARGUMENTS);
    backward[n_backward - 1] ^= 1;
    return r;
}

static const struct {
    const char *name;
    total_call *call;
} stand_ins[] = {
    {"write-past", write_past},   {"write-before", write_before},   {"read-past", read_past},
    {"read-before", read_before}, {"clear-past", clear_past},       {"input-changed", input_changed},
    {"one-too-many", one_too_many}, {"last-entry-changed", last_entry_changed},
};

static total_call *total_of_row = tanglepunt_total;

static void choose_stand_in(const char *name)
{
    for (size_t k = 0; k < sizeof stand_ins / sizeof *stand_ins; k++) {
        if (strcmp(stand_ins[k].name, name) == 0) {
            total_of_row = stand_ins[k].call;
            return;
        }
    }
    stop(BAD_STREAM, "no such stand-in among", (int)(sizeof stand_ins / sizeof *stand_ins));
}

/* ---- a case */

static void make_call(const call *c)
{
    const uint64_t *n = c->numbers;
    const slice *s = c->slice;
#define LENT(k) s[k].at, s[k].entries
    switch (c->kind) {
    case RANK: put_order(tanglepunt_rank(n[0], n[1], n[2], n[3])); break;
    case TOTAL: put_answer_number(total_of_row(LENT(0), LENT(1), n[0], n[1], LENT(2), LENT(3))); break;
    case COUNT: put_answer_number(tanglepunt_count(LENT(0), LENT(1), n[0], n[1], n[2], n[3], LENT(2), LENT(3))); break;
    case STRIKE: put_answer_number(tanglepunt_strike(LENT(0), LENT(1), n[0], n[1], LENT(2), LENT(3))); break;
    case BEGIN: put_number(tanglepunt_begin(LENT(0)), 8); break;
    case READ: put_reading(tanglepunt_read(LENT(0))); break;
    case READ_AT: put_reading(tanglepunt_read_at(LENT(0), n[0])); break;
    case BOARD_COUNTS: put_counts(tanglepunt_board_counts(LENT(0))); break;
    case WRITE: put_answer_number(tanglepunt_write(take_board(s[0].at), LENT(1))); break;
    case ADVISE: put_advice(tanglepunt_advise(LENT(0), LENT(1), LENT(2), LENT(3))); break;
    case SEARCH: put_ending(tanglepunt_search(LENT(0), s[1].at, LENT(2), LENT(3), LENT(4), LENT(5))); break;
    default: stop(BAD_STREAM, "no call of kind", c->kind);
    }
#undef LENT
}

static void run_case(void)
{
    call c;
    memset(&c, 0, sizeof c);
    take_call(&c);
    for (int k = 0; k < c.slices; k++)
        put_in_place(&c.slice[k], arena[k]);
    answer_bytes = 4;
    make_call(&c);
    for (int k = 0; k < c.slices; k++)
        look_around(&c.slice[k], arena[k], k);
    for (int k = 0; k < c.slices; k++) {
        if (c.slice[k].lent)
            put(c.slice[k].at, c.slice[k].bytes);
        if (c.slice[k].side == OWN)
            free(c.slice[k].at);
    }
    uint32_t length = (uint32_t)answer_bytes - 4;
    memcpy(answer, &length, 4);
    fwrite(answer, 1, answer_bytes, stdout);
    fflush(stdout);                                  /* so that the answers that came show which case stopped the run */
}

int main(int argc, char **argv)
{
    if (argc == 3 && strcmp(argv[1], "--wrong") == 0)
        choose_stand_in(argv[2]);
    else if (argc != 1)
        stop(BAD_STREAM, "arguments not understood:", argc - 1);
    make_arenas();
    if (!next_frame())
        stop(BAD_STREAM, "no block in a stream of bytes", 0);
    memcpy(block, take(sizeof block), sizeof block);
    while (next_frame())
        run_case();
    return 0;
}
