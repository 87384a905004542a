/* One storm cell, one catchment: a table is made, a cell reported, and a window asked. */
#include "bradawlet.h"

#include <stdio.h>
#include <stdlib.h>

enum { CELLS = 256 };

/* The memory that is lent: a table for so many cells, and a list with a place for each. */
static int32_t table[BRADAWLET_WORDS(CELLS)];
static int32_t list[CELLS];

static const size_t words = BRADAWLET_WORDS(CELLS);

static void must(const char *what, int32_t number)
{
    if (number == BRADAWLET_DONE)
        return;
    fprintf(stderr, "%s: refused by %d\n", what, (int)number);
    exit(EXIT_FAILURE);
}

int main(void)
{
    must("fresh", bradawlet_fresh(table, words, CELLS));

    /* Cell 7 is at (100, 200) at minute 10, in units of 10 m. It moves by (5, -3) a minute, and its track says nothing
       from minute 40 on. */
    must("report", bradawlet_report(table, words, 7, 100, 200, 5, -3, 10, 40));

    /* Which cells are within x 140 to 160 and y 160 to 180 at some instant from minute 15 to 25? */
    int32_t hits, opened;
    must("window", bradawlet_window(table, words, list, CELLS, 15, 25, 140, 160, 160, 180, &hits, &opened));
    printf("hits: %d\n", (int)hits);
    for (int32_t i = 0; i < hits; i++)
        printf("cell %d\n", (int)list[i]);
    return EXIT_SUCCESS;
}
