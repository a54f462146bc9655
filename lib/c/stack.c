/*
 * How much machine stack the board calls take, measured on a thread whose stack was painted before. A search must take the
 * same on a board that is finished at once and on one that uses all 64 levels of its stack room: it is no recursion.
 */
#define _POSIX_C_SOURCE 200809L
#include "tanglepunt.h"
#include <pthread.h>
#include <stdio.h>
#include <stdlib.h>
#include <string.h>

enum { SIZE = 1 << 20, PAINT = 0xA5 };

static uint8_t file[TANGLEPUNT_FILE];
static size_t length;
static uint64_t forward[TANGLEPUNT_TABLE], backward[TANGLEPUNT_TABLE], choices;
static uint32_t room[TANGLEPUNT_ROOM], levels[TANGLEPUNT_STACK];

/* A board of 64 cells with the values 0 to `most`, all in rows of weight 0, so that no choice settles another cell. */
static void make_board(unsigned most)
{
    tanglepunt_board board = {.cells = 64, .rows = 7};
    for (size_t c = 0; c < board.cells; c++) {
        tanglepunt_row *row = &board.lines[c / 10];
        board.domains[c] = (uint32_t)((UINT64_C(2) << most) - 1);
        row->names[row->len++] = c;
    }
    length = tanglepunt_write(board, file, sizeof file).number;
}

static void *nothing(void *unused)
{
    return unused;
}

static void *advise(void *unused)
{
    tanglepunt_advise(file, length, room, TANGLEPUNT_ROOM, forward, TANGLEPUNT_TABLE, backward, TANGLEPUNT_TABLE);
    return unused;
}

static void search_to(int ending)
{
    if (tanglepunt_search(file, length, &choices, room, TANGLEPUNT_ROOM, levels, TANGLEPUNT_STACK, forward,
                          TANGLEPUNT_TABLE, backward, TANGLEPUNT_TABLE)
            .ending != ending)
        abort();
}

static void *search(void *unused)
{
    choices = 64;
    search_to(TANGLEPUNT_SOLVED);
    return unused;
}

/* One that ends so settles the board once more. */
static void *search_spent(void *unused)
{
    choices = 63;
    search_to(TANGLEPUNT_SPENT);
    return unused;
}

/* The bytes that a thread with this body takes. */
static size_t taken(void *(*body)(void *))
{
    unsigned char *stack = aligned_alloc(4096, SIZE);
    pthread_attr_t attributes;
    pthread_t thread;
    size_t free_bytes = 0;
    memset(stack, PAINT, SIZE);
    if (pthread_attr_init(&attributes) || pthread_attr_setstack(&attributes, stack, SIZE) ||
        pthread_create(&thread, &attributes, body, NULL) || pthread_join(thread, NULL))
        abort();
    while (stack[free_bytes] == PAINT)
        free_bytes++;
    free(stack);
    return SIZE - free_bytes;
}

int main(void)
{
    const size_t thread = taken(nothing);
    make_board(0);
    const size_t shallow = taken(search) - thread;
    const uint64_t none = 64 - choices;
    make_board(1);
    const size_t deep = taken(search) - thread;
    const uint64_t all = 64 - choices;
    printf("machine stack: advise %zu bytes, search %zu with %d choices and %zu with %d, spent %zu\n", taken(advise) - thread,
           shallow, (int)none, deep, (int)all, taken(search_spent) - thread);
    return none == 0 && all == 64 && shallow == deep ? 0 : 1;
}
