/*
 * Measures how much stack the calls take, each on a painted stack of its own, and
 * holds what the headers say to it: enough, and at most three times what was measured.
 * The tables are a full one that reports have made, a sound one with as many entries
 * on the way to one leaf as there can be, since the search for the next live cell takes
 * stack for each entry that it tries, and words that name a chain of all nodes, which the
 * test of soundness follows to its end. Prints what each call took, a line for each
 * check that fails, and last the counts.
 */
#define _GNU_SOURCE
#include "tally.h"

#include "bradawlet.h"

#include <stdlib.h>
#include <string.h>
#include <sys/mman.h>
#include <ucontext.h>

enum { CELLS = BRADAWLET_MOST_CELLS, LAST = 1440, FAR = 100000 };

enum { STACK = 1 << 20, PAINT = 0x6b };

/* Where things stand in a table's words. */
enum { CAPACITY, CLOCK, ROOT, HEIGHT, HEADER = 16, NODE = 96, ENTRIES = 8, ENTRY = 11, FEWEST = 3 };

/* In an entry: the expiry of a cell, and the greatest one beneath an inner entry. */
enum { EXPIRY = 5, GREATEST_EXPIRY = 9 };

static int32_t table[BRADAWLET_WORDS(CELLS)], other[BRADAWLET_WORDS(CELLS)];
static int32_t list[CELLS], numbers[BRADAWLET_RECORD], hits, opened, total;
static uint8_t bytes[BRADAWLET_SHEET(CELLS)], text[BRADAWLET_TRACKS(CELLS)];
static uint8_t line[1 << 20] = "LINESTRING M (-13492800 -13492800 1000, -15745600 -15745600 1440)\n";
static const size_t words = BRADAWLET_WORDS(CELLS);

/* The minute of the calls, the length of the sheet that is read, and what a call answered. */
static int32_t now, answer;
static size_t length;

static size_t greatest;

static void call_nothing(void)
{
}

static void call_fresh(void)
{
    answer = bradawlet_fresh(other, words, CELLS);
}

static void call_report(void)
{
    answer = bradawlet_report(other, words, 1, 50000, -50000, 512, -512, now, LAST);
}

/* At a minute at which many cells have expired and are cleared. */
static void call_late_report(void)
{
    answer = bradawlet_report(other, words, 2, 0, 0, 0, 0, 720, LAST);
}

static void call_drop(void)
{
    answer = bradawlet_drop(other, words, 2, now);
}

static void call_window(void)
{
    answer = bradawlet_window(table, words, list, CELLS, now, LAST, -FAR, FAR, -FAR, FAR, &hits, &opened);
}

static void call_moving(void)
{
    answer = bradawlet_moving(table, words, list, CELLS, now, LAST, -FAR, FAR, -FAR, FAR, -FAR, FAR, -FAR, FAR, &hits,
                              &opened);
}

static void call_open(void)
{
    answer = bradawlet_open(table, words);
}

static void call_next(void)
{
    answer = bradawlet_next(table, words, CELLS / 2, numbers);
}

static void call_write(void)
{
    answer = bradawlet_write(table, words, bytes, sizeof bytes, &total);
}

static void call_read(void)
{
    answer = bradawlet_read(other, words, CELLS, bytes, length);
}

static void call_tracks(void)
{
    answer = bradawlet_tracks(table, words, text, sizeof text, &total);
}

static void call_read_track(void)
{
    answer = bradawlet_read_track(1, line, BRADAWLET_TRACK, numbers);
}

/* With a number of as many digits as there is room for. */
static void call_read_long_track(void)
{
    answer = bradawlet_read_track(1, line, sizeof line, numbers);
}

static void call_meets(void)
{
    answer = bradawlet_meets(1, -FAR, -FAR, 512, 511, 0, LAST, 0, LAST, 0, FAR, 0, FAR);
}

static void call_meets_moving(void)
{
    answer = bradawlet_meets_moving(1, -FAR, -FAR, 512, 511, 0, LAST, 0, LAST, 0, FAR, 0, FAR, -FAR, 0, -FAR, 0);
}

static void call_sheet(void)
{
    answer = bradawlet_sheet(bytes, length);
}

/* How many bytes of its stack a call has written at the most. */
static size_t taken(void (*call)(void))
{
    ucontext_t here, there;
    unsigned char *stack = mmap(NULL, STACK, PROT_READ | PROT_WRITE, MAP_PRIVATE | MAP_ANONYMOUS, -1, 0);
    if (stack == MAP_FAILED || getcontext(&there) != 0)
        abort();
    memset(stack, PAINT, STACK);
    there.uc_stack.ss_sp = stack;
    there.uc_stack.ss_size = STACK;
    there.uc_link = &here;
    makecontext(&there, call, 0);
    swapcontext(&here, &there);
    size_t clean = 0;
    while (clean < STACK && stack[clean] == PAINT)
        clean++;
    munmap(stack, STACK);
    return STACK - clean;
}

/* A call that answers something else than is expected has perhaps not gone all the way. */
static void measure(const char *name, void (*call)(void), int32_t expected)
{
    memcpy(other, table, sizeof other);
    size_t most = taken(call) - taken(call_nothing);
    printf("%s: %zu bytes of stack\n", name, most);
    check(name, answer == expected);
    if (most > greatest)
        greatest = most;
}

/* All calls on a table that is sound, or on words of which each says this. */
static void measure_all(int32_t expected)
{
    measure("report", call_report, expected);
    measure("late report", call_late_report, expected);
    measure("drop", call_drop, expected);
    measure("window", call_window, expected);
    measure("moving", call_moving, expected);
    measure("open", call_open, expected);
    measure("next", call_next, expected == BRADAWLET_DONE ? BRADAWLET_ONE : BRADAWLET_NONE);
    measure("write", call_write, expected);
    measure("tracks", call_tracks, expected);
    measure("read", call_read, BRADAWLET_DONE);
    measure("fresh", call_fresh, BRADAWLET_DONE);
}

static void check_greatest(const char *name, size_t said)
{
    printf("%s: said %zu, measured %zu\n", name, said, greatest);
    check(name, greatest <= said && said <= 3 * greatest);
    greatest = 0;
}

/* The table has so many live cells, and its sheet is the one that is read. */
static void check_made(const char *name, int32_t cells)
{
    check(name, bradawlet_write(table, words, bytes, sizeof bytes, &total) == BRADAWLET_DONE);
    check(name, total == (int32_t)BRADAWLET_SHEET(cells));
    length = (size_t)total;
}

/* A table for as many cells as can be, reported in an order that parts many nodes. */
static void make_full(void)
{
    now = 1;
    check("a fresh table", bradawlet_fresh(table, words, CELLS) == BRADAWLET_DONE);
    for (int32_t i = 0; i < CELLS; i++) {
        int32_t id = 1 + i * 37 % CELLS, expiry = id % 2 == 0 ? LAST : 700;
        check("a report", bradawlet_report(table, words, id, 700 * (id % 16), 700 * (id / 16), id % 7, -(id % 5), now,
                                           expiry) == BRADAWLET_DONE);
    }
    check_made("a full table", CELLS);
}

static int32_t nodes, cells;

static int32_t *new_node(int32_t count)
{
    int32_t *node = table + HEADER + NODE * nodes;
    node[0] = count;
    nodes++;
    return node;
}

/* The subtree of the next free node, so many levels high: its last child is the one on the way, where so many entries
   stand at each level; all others are as small as can be. All bounds and stamps are 0 and all expiries are the same,
   so each entry is what its child comes to. */
static void grow(int32_t height, const int32_t *on_the_way)
{
    int32_t count = on_the_way == NULL ? FEWEST : on_the_way[height];
    int32_t *node = new_node(count);
    for (int32_t k = 0; k < count; k++) {
        int32_t *entry = node + ENTRIES + ENTRY * k;
        entry[0] = height == 0 ? ++cells : nodes;
        entry[height == 0 ? EXPIRY : GREATEST_EXPIRY] = LAST;
        if (height > 0)
            grow(height - 1, k + 1 == count ? on_the_way : NULL);
    }
}

/* 31 entries on the way to a leaf: with 256 cells in 129 nodes there is no way with more. */
static void make_deep(void)
{
    static const int32_t on_the_way[] = {8, 8, 8, 7};
    now = 0;
    memset(table, 0, sizeof table);
    table[CAPACITY] = CELLS;
    table[HEIGHT] = 3;
    grow(table[HEIGHT], on_the_way);
    check_made("a deep table", cells);
}

/* Words that are no table: as many levels as nodes, each node with three entries, the first of which leads to the next
   node. All else is 0, so each entry is what its child comes to. */
static void make_chain(void)
{
    int32_t last = (int32_t)(words - HEADER) / NODE - 1;
    memset(table, 0, sizeof table);
    table[CAPACITY] = CELLS;
    table[HEIGHT] = last + 1;
    for (int32_t node = 0; node <= last; node++) {
        table[HEADER + NODE * node] = FEWEST;
        table[HEADER + NODE * node + ENTRIES] = node < last ? node + 1 : 0;
    }
}

int main(void)
{
    make_full();
    measure("meets", call_meets, BRADAWLET_YES);
    measure("sheet", call_sheet, BRADAWLET_YES);
    check_greatest("BRADAWLET_VIEWER_STACK", BRADAWLET_VIEWER_STACK);
    measure("meets_moving", call_meets_moving, BRADAWLET_YES);
    measure("read_track", call_read_track, BRADAWLET_DONE);
    memset(line + 15, '1', sizeof line - 15);
    measure("read_track, a long line", call_read_long_track, BRADAWLET_NO_TRACK);
    measure_all(BRADAWLET_DONE);
    make_deep();
    measure_all(BRADAWLET_DONE);
    check_greatest("BRADAWLET_STACK", BRADAWLET_STACK);
    make_chain();
    measure_all(BRADAWLET_NOT_SOUND);
    check_greatest("BRADAWLET_STACK_ANY_WORDS", BRADAWLET_STACK_ANY_WORDS);
    return verdict();
}
