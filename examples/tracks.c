/*
 * The tracks of the live cells as well-known text, which map programs read, and the cells got back from its lines and
 * put into another table. No line says which cell it is of: the lines stand in the order of the leafing.
 */
#include "bradawlet.h"

#include <stdio.h>
#include <stdlib.h>
#include <string.h>

enum { CELLS = 256 };
/* The table's clock when the text is written, kept beside it: no record has it. */
enum { CLOCK = 10 };

static int32_t table[BRADAWLET_WORDS(CELLS)], other[BRADAWLET_WORDS(CELLS)];
/* Enough for a line of every cell. */
static char text[BRADAWLET_TRACKS(CELLS)];

static const size_t words = BRADAWLET_WORDS(CELLS);

static void must(const char *what, int32_t number)
{
    if (number == BRADAWLET_DONE)
        return;
    fprintf(stderr, "%s: refused by %d\n", what, (int)number);
    exit(EXIT_FAILURE);
}

/* Reports a cell that was read as it is at the text's clock, which becomes the other table's. A record has the position
   at minute 0, and its numbers do not stand in the order of a report's. */
static void put_in(const int32_t cell[BRADAWLET_RECORD])
{
    must("report", bradawlet_report(other, words, cell[0], cell[1] + cell[2] * CLOCK, cell[3] + cell[4] * CLOCK,
                                    cell[2], cell[4], CLOCK, cell[5]));
}

static void read_back(int32_t id, const char *line, size_t length)
{
    int32_t cell[BRADAWLET_RECORD];
    int32_t number = bradawlet_read_track(id, (const uint8_t *)line, length, cell);
    if (number != BRADAWLET_DONE) {
        printf("refused by %d: %.*s", (int)number, (int)length, line);
        return;
    }
    put_in(cell);
    printf("cell %d with velocity (%d, %d), until minute %d\n", (int)cell[0], (int)cell[2], (int)cell[4], (int)cell[5]);
}

/* Lines and live cells side by side: they stand in the same order as long as no report or drop comes between. A line
   goes up to its line feed, which belongs to it. No zero byte follows the last one: the total says where it ends. */
static void read_all(int32_t total)
{
    const char *line = text, *end = text + total;
    int32_t cell[BRADAWLET_RECORD], last = 0;
    must("open", bradawlet_open(table, words));
    while (line < end && bradawlet_next(table, words, last, cell) == BRADAWLET_ONE) {
        const char *next = (const char *)memchr(line, '\n', (size_t)(end - line)) + 1;
        read_back(cell[0], line, (size_t)(next - line));
        line = next;
        last = cell[0];
    }
}

int main(void)
{
    must("fresh", bradawlet_fresh(table, words, CELLS));
    must("fresh", bradawlet_fresh(other, words, CELLS));
    must("report", bradawlet_report(table, words, 7, 100, 200, 5, -3, CLOCK, 40));
    must("report", bradawlet_report(table, words, 9, 0, 0, 3, 3, CLOCK, 30));

    int32_t total;
    must("tracks", bradawlet_tracks(table, words, (uint8_t *)text, sizeof text, &total));
    printf("%.*s%d bytes\n", (int)total, text, (int)total);
    read_all(total);

    /* Some map programs write the first line so, and it is not read. */
    const char *unspaced = "LINESTRING M (1000 2000 10,2500 1100 40)\n";
    read_back(7, unspaced, strlen(unspaced));
    /* One point has no velocity: no table gives such a line, and it is not read. */
    const char *point = "POINT M (2500 1100 40)\n";
    read_back(7, point, strlen(point));

    must("tracks", bradawlet_tracks(other, words, (uint8_t *)text, sizeof text, &total));
    printf("the other table:\n%.*s", (int)total, text);
    return EXIT_SUCCESS;
}
