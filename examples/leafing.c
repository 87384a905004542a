/*
 * The live cells one by one, by rising identifier. The table is opened first: a step that gives none is an answer
 * only after an opening that gave 0, since a step over words that are no table gives none as well.
 */
#include "bradawlet.h"

#include <stdio.h>
#include <stdlib.h>

enum { CELLS = 16 };

static int32_t table[BRADAWLET_WORDS(CELLS)];

static const size_t words = BRADAWLET_WORDS(CELLS);

static void must(const char *what, int32_t number)
{
    if (number == BRADAWLET_DONE)
        return;
    fprintf(stderr, "%s: refused by %d\n", what, (int)number);
    exit(EXIT_FAILURE);
}

/* Where the cell is at a minute: its record has the position at minute 0. */
static void print_at(const int32_t cell[BRADAWLET_RECORD], int32_t minute)
{
    printf("cell %d at (%d, %d), until minute %d\n", (int)cell[0], (int)(cell[1] + cell[2] * minute),
           (int)(cell[3] + cell[4] * minute), (int)cell[5]);
}

static void leaf_through(int32_t minute)
{
    int32_t cell[BRADAWLET_RECORD], last = 0;
    int32_t opening = bradawlet_open(table, words);
    if (opening != BRADAWLET_DONE) {
        printf("no table: refused by %d\n", (int)opening);
        return;
    }
    while (bradawlet_next(table, words, last, cell) == BRADAWLET_ONE) {
        print_at(cell, minute);
        last = cell[0];
    }
    printf("no more\n");
}

int main(void)
{
    must("fresh", bradawlet_fresh(table, words, CELLS));
    leaf_through(0);
    must("report", bradawlet_report(table, words, 9, 0, 0, 3, 3, 10, 30));
    must("report", bradawlet_report(table, words, 2000000000, -50, 50, 0, -1, 10, 60));
    must("report", bradawlet_report(table, words, 7, 100, 200, 5, -3, 10, 40));
    leaf_through(10);
    /* Words that are no table: here one of them is overwritten. */
    table[0] = -1;
    leaf_through(10);
    return EXIT_SUCCESS;
}
