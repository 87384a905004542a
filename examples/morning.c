/*
 * A table kept over a morning: radar reports cells every few minutes, one is dropped, others expire, and after
 * each minute's reports two catchments are asked about the half hour that follows.
 */
#include "bradawlet.h"

#include <stdio.h>
#include <stdlib.h>

enum { CELLS = 64, SPAN = 30 };

struct report {
    int32_t id, x, y, vx, vy, minute, expiry;
};

struct catchment {
    const char *name;
    int32_t xlow, xhigh, ylow, yhigh;
};

/* By rising minute, as they come in: the table's clock does not go back. */
static const struct report morning[] = {
    {11, -4000, 1000, 60, -10, 360, 380},  {12, 2500, -900, -45, 30, 360, 385},
    {11, -3680, 940, 64, -12, 365, 395},   {13, 9000, 8000, -300, -310, 365, 395},
    {12, 2250, -760, -50, 28, 370, 400},   {11, -3350, 890, 66, -10, 370, 400},
    {14, 1000, 0, 0, 0, 370, 372},
};

static const struct catchment catchments[] = {
    {"Mill Brook", -2500, -1500, 600, 900},
    {"Weir Park", 900, 1500, -300, 200},
};

static int32_t table[BRADAWLET_WORDS(CELLS)];
static int32_t list[CELLS];

static const size_t words = BRADAWLET_WORDS(CELLS);

/* A refusal is a fault of this program here, and no answer: it must not pass for an empty list. */
static void must(const char *what, int32_t number)
{
    if (number == BRADAWLET_DONE)
        return;
    fprintf(stderr, "%s: refused by %d\n", what, (int)number);
    exit(EXIT_FAILURE);
}

static void ask(int32_t minute, const struct catchment *c)
{
    int32_t hits, opened;
    must("window", bradawlet_window(table, words, list, CELLS, minute, minute + SPAN, c->xlow, c->xhigh, c->ylow,
                                    c->yhigh, &hits, &opened));
    printf("  %s:", c->name);
    for (int32_t i = 0; i < hits; i++)
        printf(" %d", (int)list[i]);
    puts(hits == 0 ? " no cell" : "");
}

static void ask_all(int32_t minute)
{
    printf("minute %d\n", (int)minute);
    for (size_t i = 0; i < sizeof catchments / sizeof catchments[0]; i++)
        ask(minute, &catchments[i]);
}

int main(void)
{
    const size_t reports = sizeof morning / sizeof morning[0];
    must("fresh", bradawlet_fresh(table, words, CELLS));
    for (size_t i = 0; i < reports; i++) {
        const struct report *r = &morning[i];
        must("report", bradawlet_report(table, words, r->id, r->x, r->y, r->vx, r->vy, r->minute, r->expiry));
        if (i + 1 == reports || morning[i + 1].minute != r->minute)
            ask_all(r->minute);
    }
    /* Radar has lost cell 11. At minute 375 cell 14 is gone as well: it expired at 372. */
    must("drop", bradawlet_drop(table, words, 11, 375));
    ask_all(375);
    return EXIT_SUCCESS;
}
