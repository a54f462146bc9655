/* A row, a board and a search by the library, in document 01's examples. */
#include "tanglepunt.h"

#include <inttypes.h>
#include <stdio.h>

/* Document 01's board of 36 bytes. */
static const uint8_t file[] = {0x0E, 0, 0, 0, 0x0E, 0, 0, 0, 0x0E, 0, 0, 0, 2, 3, 0, 3, 0, 0,
                               1,    1, 1, 2, 7,    0, 8, 0, 1,    1, 2, 2, 12, 0, 3, 2, 0x53, 0x4C};
static uint64_t forward[TANGLEPUNT_TABLE], backward[TANGLEPUNT_TABLE];
static uint32_t room[TANGLEPUNT_ROOM], stack[TANGLEPUNT_STACK];

static void print_domain(uint32_t domain)
{
    for (int value = 0; value < TANGLEPUNT_VALUES; value++)
        if (domain >> value & 1)
            printf(" %d", value);
    printf(domain ? "\n" : " NONE\n");
}

/* The Figure row: its total, the count of its first cell and value 1, and what striking leaves. */
static int show_row(void)
{
    const uint8_t weights[] = {3, 1, 2, 1};
    uint32_t domains[] = {0x7, 0xB, 0x7, 0x6}; /* {0,1,2}, {0,1,3}, {0,1,2}, {1,2} */
    tanglepunt_number total = tanglepunt_checked_total(weights, 4, domains, 4, 5, 8, forward, TANGLEPUNT_TABLE,
                                                       backward, TANGLEPUNT_TABLE);
    tanglepunt_number count = tanglepunt_checked_count(weights, 4, domains, 4, 5, 8, 0, 1, forward, TANGLEPUNT_TABLE,
                                                       backward, TANGLEPUNT_TABLE);
    /* with the sum 14 asked for, one filling is good */
    tanglepunt_number struck = tanglepunt_checked_strike(weights, 4, domains, 4, 14, 14, forward, TANGLEPUNT_TABLE,
                                                         backward, TANGLEPUNT_TABLE);
    if (total.refused || count.refused || struck.refused)
        return 1;
    printf("total %" PRIu64 ", first cell with value 1: %" PRIu64 "\n", total.number, count.number);
    printf("limits 14 to 14: %" PRIu64 " values struck, leaving\n", struck.number);
    for (size_t place = 0; place < 4; place++)
        print_domain(domains[place]);
    return 0;
}

/* The board file, settled and advised on; then the same bytes without the last, which is refused. */
static int show_board(void)
{
    tanglepunt_counts counts = tanglepunt_checked_board_counts(file, sizeof file);
    tanglepunt_advice advice = tanglepunt_checked_advise(file, sizeof file, room, TANGLEPUNT_ROOM, forward,
                                                         TANGLEPUNT_TABLE, backward, TANGLEPUNT_TABLE);
    if (counts.refused || advice.refused)
        return 1;
    printf("passes %" PRIu64 ", struck %" PRIu64 "; the settled domains\n", advice.passes, advice.struck);
    for (size_t cell = 0; cell < counts.cells; cell++)
        print_domain(room[cell]);
    if (advice.kind == TANGLEPUNT_DEAD)
        printf("dead\n");
    else if (advice.kind == TANGLEPUNT_SETTLED)
        printf("settled\n");
    else
        printf("advise cell %" PRIu64 ", value %" PRIu64 ": row %" PRIu64 ", %" PRIu64 " of %" PRIu64 ", share %g\n",
               advice.cell, advice.value, advice.row, advice.count, advice.total, advice.share);
    printf("without the last byte: refused, %d\n", tanglepunt_checked_read(file, sizeof file - 1).refused);
    return 0;
}

/* The same board finished with up to 10 choices: how the search ended, and what the room then holds of each cell. */
static int show_search(void)
{
    static const char *const endings[] = {"SOLVED", "NONE", "SPENT"};
    const uint64_t given = 10;
    uint64_t left = given;
    tanglepunt_counts counts = tanglepunt_checked_board_counts(file, sizeof file);
    tanglepunt_ending ended = tanglepunt_checked_search(file, sizeof file, &left, room, TANGLEPUNT_ROOM, stack,
                                                        TANGLEPUNT_STACK, forward, TANGLEPUNT_TABLE, backward,
                                                        TANGLEPUNT_TABLE);
    if (counts.refused || ended.refused)
        return 1;
    printf("%s FOLLOWED %" PRIu64 " LEFT %" PRIu64 "\n", endings[ended.ending], given - left, left);
    for (size_t cell = 0; cell < counts.cells; cell++) {
        printf("CELL %zu VALUES", cell);
        print_domain(room[cell]);
    }
    return 0;
}

int main(void)
{
    return show_row() || show_board() || show_search();
}
