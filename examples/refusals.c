/*
 * Refusals told apart. Each has a number and a name, and says what to mend: the question, the report, the memory, or
 * nothing. None of them is an empty list, and none has changed anything.
 */
#include "bradawlet.h"

#include <stdio.h>
#include <stdlib.h>

enum { CELLS = 2 };

static int32_t table[BRADAWLET_WORDS(CELLS)];
static int32_t list[1];

static const size_t words = BRADAWLET_WORDS(CELLS);

static const char *reason(int32_t number)
{
    switch (number) {
    case BRADAWLET_NOT_SOUND:
        return "the words are no table: make one, or read the last sheet";
    case BRADAWLET_BAD_CAPACITY:
        return "no table is for so many cells";
    case BRADAWLET_SHORT_TABLE:
        return "lend more words";
    case BRADAWLET_OUT_OF_RANGE:
        return "a number is outside its range";
    case BRADAWLET_BEFORE_CLOCK:
        return "the table's clock is past that minute";
    case BRADAWLET_EXPIRES_FIRST:
        return "the cell's expiry is not after its report";
    case BRADAWLET_BACKWARD:
        return "start and end, or two edges, are transposed";
    case BRADAWLET_NOT_LIVE:
        return "there is no such cell";
    case BRADAWLET_FULL:
        return "the table has no room for so many cells";
    case BRADAWLET_SHORT_LIST:
        return "lend a longer list";
    case BRADAWLET_BAD_HEADER:
        return "the bytes do not begin as a sheet of that length does";
    case BRADAWLET_BAD_RECORD:
        return "a cell of the sheet is out of range, expired or out of order";
    case BRADAWLET_SHORT_BYTES:
        return "lend more bytes";
    case BRADAWLET_NO_TRACK:
        return "the line and the identifier give no cell";
    default:
        return "no refusal";
    }
}

static void tell(const char *what, int32_t number)
{
    if (number == BRADAWLET_DONE)
        printf("%s: done\n", what);
    else
        printf("%s: refused by %d, %s\n", what, (int)number, reason(number));
}

/* Asks for the whole plane. */
static void ask(const char *what, int32_t start, int32_t end)
{
    int32_t hits, opened;
    int32_t number = bradawlet_window(table, words, list, sizeof list / sizeof list[0], start, end, -100000, 100000,
                                      -100000, 100000, &hits, &opened);
    tell(what, number);
    if (number == BRADAWLET_DONE)
        printf("  hits: %d\n", (int)hits);
    else if (number == BRADAWLET_SHORT_LIST)
        printf("  hits, none of them listed: %d\n", (int)hits);
}

int main(void)
{
    ask("a window before there is a table", 10, 20);
    tell("a table for 300 cells", bradawlet_fresh(table, words, 300));
    tell("a table for 256 cells in few words", bradawlet_fresh(table, words, 256));
    tell("a table for 2 cells", bradawlet_fresh(table, words, CELLS));
    ask("a window over an empty table", 0, 20);
    tell("a report", bradawlet_report(table, words, 7, 100, 200, 5, -3, 10, 40));
    tell("a report of 513 units a minute", bradawlet_report(table, words, 8, 0, 0, 513, 0, 10, 40));
    tell("a report of minute 9", bradawlet_report(table, words, 8, 0, 0, 0, 0, 9, 40));
    tell("a report of minute 12 that expires at 12", bradawlet_report(table, words, 8, 0, 0, 0, 0, 12, 12));
    ask("a window from 40 to 12", 40, 12);
    tell("a drop of cell 8", bradawlet_drop(table, words, 8, 12));
    tell("a second cell", bradawlet_report(table, words, 8, 0, 0, 1, 1, 12, 40));
    tell("a third cell", bradawlet_report(table, words, 9, 0, 0, 1, 1, 12, 40));
    ask("a window with two hits and one place", 12, 40);
    ask("a window from the expiry of both on", 40, 50);

    uint8_t bytes[BRADAWLET_SHEET(CELLS)];
    int32_t total;
    tell("a sheet in 16 bytes", bradawlet_write(table, words, bytes, 16, &total));
    tell("a sheet", bradawlet_write(table, words, bytes, sizeof bytes, &total));
    bytes[4] = 17;
    tell("a sheet with another offset, read", bradawlet_read(table, words, CELLS, bytes, sizeof bytes));
    bytes[4] = 16;
    tell("a sheet of 2 cells, read for 1", bradawlet_read(table, words, 1, bytes, sizeof bytes));
    bytes[16] = 0;
    tell("a sheet with identifier 0, read", bradawlet_read(table, words, CELLS, bytes, sizeof bytes));

    static const uint8_t point[] = "POINT M (1000 2000 10)\n";
    int32_t cell[BRADAWLET_RECORD];
    tell("a point, read as a track", bradawlet_read_track(7, point, sizeof point - 1, cell));
    return EXIT_SUCCESS;
}
