/*
 * Makes every call of bradawlet.h once, those of bradawlet_viewer.h among them. It is
 * compiled as C and as C++, and linked with the larger library, and with both in
 * either order.
 */
#include "tally.h"

#include "bradawlet.h"

enum { CELLS = 4 };

static int32_t table[BRADAWLET_WORDS(CELLS)], list[CELLS], cell[BRADAWLET_RECORD], hits, opened, total;
static uint8_t bytes[BRADAWLET_SHEET(CELLS)], text[BRADAWLET_TRACKS(CELLS)];
static const size_t words = BRADAWLET_WORDS(CELLS);

static void check_tables(void)
{
    check("fresh", bradawlet_fresh(table, words, CELLS) == BRADAWLET_DONE);
    check("report", bradawlet_report(table, words, 7, 100, 200, 5, -3, 10, 40) == BRADAWLET_DONE);
    check("report", bradawlet_report(table, words, 9, 0, 0, 3, 3, 10, 30) == BRADAWLET_DONE);
    check("window", bradawlet_window(table, words, list, CELLS, 20, 20, 150, 150, 170, 170, &hits, &opened) ==
                        BRADAWLET_DONE);
    check("window", hits == 1 && opened == 1 && list[0] == 7);
    check("moving", bradawlet_moving(table, words, list, CELLS, 10, 20, 0, 0, 0, 0, 30, 30, 30, 30, &hits,
                                     &opened) == BRADAWLET_DONE);
    check("moving", hits == 1 && opened == 1 && list[0] == 9);
    check("drop", bradawlet_drop(table, words, 7, 12) == BRADAWLET_DONE);
    check("open", bradawlet_open(table, words) == BRADAWLET_DONE);
    check("next", bradawlet_next(table, words, 0, cell) == BRADAWLET_ONE && cell[0] == 9);
    check("next", bradawlet_next(table, words, 9, cell) == BRADAWLET_NONE && cell[0] == 0);
    check("write", bradawlet_write(table, words, bytes, sizeof bytes, &total) == BRADAWLET_DONE);
    check("write", total == 40 && BRADAWLET_SHEET(1) == 40);
    check("read", bradawlet_read(table, words, CELLS, bytes, BRADAWLET_SHEET(1)) == BRADAWLET_DONE);
}

static void check_tracks(void)
{
    check("tracks", bradawlet_tracks(table, words, text, sizeof text, &total) == BRADAWLET_DONE);
    check("tracks", total == 36 && BRADAWLET_TRACK == 66 && BRADAWLET_TRACKS(CELLS) == 264);
    check("read_track", bradawlet_read_track(9, text, 36, cell) == BRADAWLET_DONE);
    check("read_track", cell[0] == 9 && cell[1] == -30 && cell[5] == 30);
    check("read_track", bradawlet_read_track(9, text, 35, cell) == BRADAWLET_NO_TRACK && cell[0] == 0);
}

int main(void)
{
    check_tables();
    check_tracks();
    check("sheet", bradawlet_sheet(bytes, BRADAWLET_SHEET(1)) == BRADAWLET_YES);
    check("meets", bradawlet_meets(1, 0, 0, 3, 3, 0, 40, 0, 1, 1, 1, 1, 1) == BRADAWLET_YES);
    check("meets_moving", bradawlet_meets_moving(1, 3, 0, 2, 0, 0, 40, 0, 10, 0, 2, 0, 0, 20, 22, 0, 0) ==
                              BRADAWLET_NO);
    return verdict();
}
