/*
 * Makes fresh tables, reports to them and drops from them, asks them, writes and
 * reads their sheets, leafs through them, writes their tracks and reads lines, from
 * C: every number that these calls give; and asks whether cells meet moving queries.
 * All that is lent is lent in blocks of just its size.
 * Prints a line for each check that fails, and last the counts.
 */
#include "lent.h"
#include "lines.h"
#include "tally.h"

#include "bradawlet.h"

#include <stdio.h>
#include <stdlib.h>
#include <string.h>

#define COUNT(array) (sizeof(array) / sizeof(array)[0])

enum { CELLS = 9, PLACES = 4, EXTRA = 5, RUBBISH = -559038737 };

/* What a query answered. */
struct answer {
    int32_t number, hits, opened;
};

struct query {
    int32_t start, end;
    int32_t first[4], last[4];
};

static int32_t *rubbish(size_t words)
{
    int32_t *memory = lend(words * sizeof *memory);
    for (size_t i = 0; i < words; i++)
        memory[i] = RUBBISH;
    return memory;
}

static int32_t *copy(const int32_t *table, size_t words)
{
    int32_t *other = rubbish(words);
    memcpy(other, table, words * sizeof *table);
    return other;
}

static bool all_rubbish(const int32_t *memory, size_t words)
{
    for (size_t i = 0; i < words; i++)
        if (memory[i] != RUBBISH)
            return false;
    return true;
}

/* The counts of a query, lent as well, with its number. */
static struct answer answered(int32_t number, int32_t *hits, int32_t *opened)
{
    struct answer a = {number, *hits, *opened};
    give_back(hits);
    give_back(opened);
    return a;
}

static struct answer window(const int32_t *table, size_t words, int32_t *list, size_t places,
                            struct query q)
{
    int32_t *hits = rubbish(1), *opened = rubbish(1);
    int32_t number = bradawlet_window(table, words, list, places, q.start, q.end, q.first[0],
                                      q.first[1], q.first[2], q.first[3], hits, opened);
    return answered(number, hits, opened);
}

static struct answer moving(const int32_t *table, size_t words, int32_t *list, size_t places,
                            struct query q)
{
    int32_t *hits = rubbish(1), *opened = rubbish(1);
    int32_t number = bradawlet_moving(table, words, list, places, q.start, q.end, q.first[0],
                                      q.first[1], q.first[2], q.first[3], q.last[0], q.last[1],
                                      q.last[2], q.last[3], hits, opened);
    return answered(number, hits, opened);
}

static bool is(struct answer a, int32_t number, int32_t hits, int32_t opened)
{
    return a.number == number && a.hits == hits && a.opened == opened;
}

static void check_fresh(int32_t cells, size_t words, int32_t number)
{
    char name[80];
    int32_t *table = rubbish(words);
    snprintf(name, sizeof name, "fresh for %d cells in %zu words", (int)cells, words);
    check(name, bradawlet_fresh(table, words, cells) == number);
    size_t untouched_from = number == BRADAWLET_DONE ? BRADAWLET_WORDS(cells) : 0;
    check(name, all_rubbish(table + untouched_from, words - untouched_from));
    give_back(table);
}

/* Asks a window and the same rectangle as a moving query: both must answer this, write these
   identifiers and nothing else. */
static void check_query(const char *name, const int32_t *table, size_t words, size_t places,
                        struct query q, struct answer expected, const int32_t *identifiers)
{
    size_t written = expected.number == BRADAWLET_DONE ? (size_t)expected.hits : 0;
    for (int kind = 0; kind < 2; kind++) {
        int32_t *lent = copy(table, words), *list = rubbish(places);
        struct answer a = (kind == 0 ? window : moving)(lent, words, list, places, q);
        check(name, is(a, expected.number, expected.hits, expected.opened));
        check(name, memcmp(list, identifiers, written * sizeof *list) == 0);
        check(name, all_rubbish(list + written, places - written));
        check(name, memcmp(lent, table, words * sizeof *table) == 0);
        give_back(list);
        give_back(lent);
    }
}

/* Writes a cell into a fresh table whose root is still a leaf, as its words are laid out: the
   root's count, and the cell's six numbers. */
static void put(int32_t *table, const int32_t cell[6])
{
    int32_t *root = table + 16 + 96 * table[2];
    memcpy(root + 8 + 11 * root[0], cell, 6 * sizeof *cell);
    root[0]++;
}

static void check_queries(void)
{
    static const int32_t third[6] = {9, 0, 3, 0, 3, 40}, expired[6] = {5, 0, 0, 0, 0, 9},
                         still[6] = {INT32_MAX, 1, 0, 1, 0, 1440}, ended[6] = {2, 1, 0, 1, 0, 10},
                         brief[6] = {3, 1, 0, 1, 0, 11};
    static const int32_t none[1] = {0}, at_11[2] = {9, INT32_MAX}, at_10[2] = {3, INT32_MAX},
                         later[1] = {INT32_MAX};
    const size_t words = BRADAWLET_WORDS(CELLS) + EXTRA;
    const struct query whole = {10, 11, {-9, 9, -9, 9}, {-9, 9, -9, 9}};
    const struct answer unsound = {BRADAWLET_NOT_SOUND, 0, 0};
    int32_t *table = rubbish(words);

    check_query("rubbish", table, words, PLACES, whole, unsound, none);
    check_query("no words", table, 0, PLACES, whole, unsound, none);
    check("a fresh table", bradawlet_fresh(table, words, CELLS) == BRADAWLET_DONE);
    check_query("fresh", table, words, PLACES, whole, (struct answer){0, 0, 1}, none);
    check_query("fresh, no list", table, words, 0, whole, (struct answer){0, 0, 1}, none);
    check_query("a word too few", table, BRADAWLET_WORDS(CELLS) - 1, PLACES, whole, unsound, none);

    put(table, still);
    put(table, third);
    put(table, expired);
    put(table, ended);
    put(table, brief);
    table[1] = 10;

    struct query q = {11, 12, {1, 34, 1, 34}, {1, 34, 1, 34}};
    check_query("two hits", table, words, PLACES, q, (struct answer){0, 2, 1}, at_11);
    check_query("two hits, two places", table, words, 2, q, (struct answer){0, 2, 1}, at_11);
    check_query("two hits, one place", table, words, 1, q, (struct answer){10, 2, 0}, none);
    check_query("two hits, no list", table, words, 0, q, (struct answer){10, 2, 0}, none);
    q = (struct query){10, 11, {1, 1, 1, 1}, {1, 1, 1, 1}};
    check_query("at the expiry of 2", table, words, PLACES, q, (struct answer){0, 2, 1}, at_10);
    q = (struct query){11, 12, {1, 1, 1, 1}, {1, 1, 1, 1}};
    check_query("at the expiry of 3", table, words, PLACES, q, (struct answer){0, 1, 1}, later);
    q = (struct query){39, 40, {119, 119, 119, 119}, {119, 119, 119, 119}};
    check_query("a third before the expiry", table, words, PLACES, q, (struct answer){0, 1, 1}, at_11);
    q = (struct query){39, 40, {120, 120, 120, 120}, {120, 120, 120, 120}};
    check_query("at three thirds, the expiry", table, words, PLACES, q, (struct answer){0, 0, 1}, none);
    q = (struct query){40, 41, {119, 123, 119, 123}, {119, 123, 119, 123}};
    check_query("from the expiry on", table, words, PLACES, q, (struct answer){0, 0, 1}, none);
    q = (struct query){11, 12, {34, 34, 34, 34}, {34, 34, 34, 34}};
    check_query("at a third of a minute", table, words, PLACES, q, (struct answer){0, 1, 1}, at_11);
    q = (struct query){11, 12, {34, 34, 35, 35}, {34, 34, 35, 35}};
    check_query("x and y in turn", table, words, PLACES, q, (struct answer){0, 0, 1}, none);

    struct query wrong = whole;
    wrong.first[3] = wrong.last[3] = 100001;
    check_query("4: an edge out of range", table, words, 0, wrong, (struct answer){4, 0, 0}, none);
    wrong = whole;
    wrong.start = -1;
    check_query("4 before 5", table, words, 0, wrong, (struct answer){4, 0, 0}, none);
    wrong.start = 9;
    check_query("5: before the clock", table, words, 0, wrong, (struct answer){5, 0, 0}, none);
    wrong.end = 8;
    check_query("5 before 7", table, words, 0, wrong, (struct answer){5, 0, 0}, none);
    wrong.start = 40;
    wrong.end = 12;
    check_query("7: start, end transposed", table, words, 0, wrong, (struct answer){7, 0, 0}, none);
    wrong = whole;
    wrong.first[0] = wrong.last[0] = 10;
    check_query("7: xlow above xhigh", table, words, 0, wrong, (struct answer){7, 0, 0}, none);

    int32_t *list = rubbish(PLACES);
    wrong = whole;
    wrong.last[2] = 10;
    check("7: ylow2 above yhigh2", is(moving(table, words, list, PLACES, wrong), 7, 0, 0));
    wrong = whole;
    wrong.end = wrong.start;
    check("7: start equals end", is(moving(table, words, list, PLACES, wrong), 7, 0, 0));
    check("a window of one instant", is(window(table, words, list, PLACES, wrong), 0, 2, 1));
    wrong.start = wrong.end = 11;
    check("a window of the next instant", is(window(table, words, list, PLACES, wrong), 0, 1, 1));
    q = (struct query){10, 20, {0, 0, 0, 0}, {60, 60, 60, 60}};
    check("two met at 10 and 1/6, one at the end", is(moving(table, words, list, PLACES, q), 0, 3, 1));
    q = (struct query){10, 11, {0, 0, 1, 1}, {1, 1, 1, 1}};
    check("one met at the end, one not at its expiry", is(moving(table, words, list, PLACES, q), 0, 1, 1));

    table[16 + 96 * table[2]] = 9;
    check_query("nine entries", table, words, 0, wrong, unsound, none);
    give_back(list);
    give_back(table);
}

typedef int32_t writer(const int32_t *table, size_t words, uint8_t *bytes, size_t length,
                       int32_t *total);

/* Has a table written into so many bytes: the call must answer this, and write these bytes or
   nothing. */
static void check_written(const char *name, writer *call, const int32_t *table, size_t words,
                          size_t length, int32_t number, const void *expected, size_t total)
{
    size_t written = number == BRADAWLET_DONE ? total : 0;
    int32_t *lent = copy(table, words), *told = rubbish(1);
    uint8_t *bytes = lend(length);
    memset(bytes, 0xa5, length);
    check(name, call(lent, words, bytes, length, told) == number);
    check(name, *told == (int32_t)written);
    check(name, memcmp(lent, table, words * sizeof *table) == 0);
    check(name, memcmp(bytes, expected, written) == 0);
    for (size_t i = written; i < length; i++)
        if (bytes[i] != 0xa5) {
            check(name, false);
            break;
        }
    give_back(bytes);
    give_back(told);
    give_back(lent);
}

static void check_write(const char *name, const int32_t *table, size_t words, size_t length,
                        int32_t number, const uint8_t *sheet, size_t total)
{
    check_written(name, bradawlet_write, table, words, length, number, sheet, total);
}

static void check_next(const char *name, const int32_t *table, size_t words, int32_t last,
                       int32_t answer, const int32_t cell[6])
{
    int32_t *numbers = rubbish(6);
    check(name, bradawlet_next(table, words, last, numbers) == answer);
    check(name, memcmp(numbers, cell, 6 * sizeof *cell) == 0);
    give_back(numbers);
}

/* Reads the sheet into so many words: it must answer this, and touch no word past the table's
   need, or none at all. */
static void check_read(const char *name, size_t words, int32_t cells, const uint8_t *sheet,
                       size_t length, int32_t number)
{
    int32_t *table = rubbish(words);
    uint8_t *bytes = lend(length);
    memcpy(bytes, sheet, length);
    check(name, bradawlet_read(table, words, cells, bytes, length) == number);
    check(name, memcmp(bytes, sheet, length) == 0);
    size_t untouched_from = number == BRADAWLET_DONE ? BRADAWLET_WORDS(cells) : 0;
    check(name, all_rubbish(table + untouched_from, words - untouched_from));
    if (number == BRADAWLET_DONE)
        check_write(name, table, words, length, BRADAWLET_DONE, sheet, length);
    give_back(bytes);
    give_back(table);
}

/* A sheet with two cells, and what can be wrong with it. */
static void check_reads(const uint8_t two[BRADAWLET_SHEET(2)])
{
    const size_t total = BRADAWLET_SHEET(2), words = BRADAWLET_WORDS(CELLS);
    uint8_t wrong[BRADAWLET_SHEET(2)];

    check_read("a sheet read", words, CELLS, two, total, BRADAWLET_DONE);
    check_read("a sheet read, words left", words + EXTRA, CELLS, two, total, BRADAWLET_DONE);
    check_read("as many cells as it is for", words, 2, two, total, BRADAWLET_DONE);
    check_read("9: a cell too many", words, 1, two, total, BRADAWLET_FULL);
    check_read("2: no such capacity", words, 0, two, total, BRADAWLET_BAD_CAPACITY);
    check_read("2 before 3", 0, 257, two, total, BRADAWLET_BAD_CAPACITY);
    check_read("3: a word too few", words - 1, CELLS, two, total, BRADAWLET_SHORT_TABLE);
    check_read("3 before 11", 0, CELLS, two, 0, BRADAWLET_SHORT_TABLE);
    for (size_t length = 0; length < total; length++)
        check_read("11: bytes missing", words, CELLS, two, length, BRADAWLET_BAD_HEADER);
    memcpy(wrong, two, total);
    wrong[4] = 17;
    check_read("11 before 9", words, 1, wrong, total, BRADAWLET_BAD_HEADER);
    memcpy(wrong, two, total);
    wrong[16] = 0;
    check_read("12: identifier 0", words, CELLS, wrong, total, BRADAWLET_BAD_RECORD);
    check_read("9 before 12", words, 1, wrong, total, BRADAWLET_FULL);
    memcpy(wrong, two, total);
    wrong[36] = 9;
    check_read("12: expired", words, CELLS, wrong, total, BRADAWLET_BAD_RECORD);
    wrong[36] = 10;
    check_read("12: expired at the clock", words, CELLS, wrong, total, BRADAWLET_BAD_RECORD);
    check_read("9 before 12: expired at the clock", words, 1, wrong, total, BRADAWLET_FULL);
    wrong[36] = 12;
    check_read("two minutes to live", words, CELLS, wrong, total, BRADAWLET_DONE);
    memcpy(wrong, two, total);
    wrong[8] = 11;
    check_read("12: clock at an expiry", words, CELLS, wrong, total, BRADAWLET_BAD_RECORD);
    wrong[8] = 9;
    check_read("clock two minutes before an expiry", words, CELLS, wrong, total, BRADAWLET_DONE);
    memcpy(wrong + 16, two + 40, 24);
    memcpy(wrong + 40, two + 16, 24);
    check_read("12: falling identifiers", words, CELLS, wrong, total, BRADAWLET_BAD_RECORD);
}

static void check_sheets(void)
{
    static const int32_t late[6] = {INT32_MAX, -837280, 0, 1, -512, 1440},
                         expired[6] = {5, 0, 0, 0, 0, 9}, ended[6] = {4, 7, 1, 7, 1, 10},
                         brief[6] = {2, 1, 3, -1, 0, 11}, none[6] = {0, 0, 0, 0, 0, 0};
    static const uint8_t empty[BRADAWLET_SHEET(0)] = {0, 0, 0, 0, 16, 0, 0, 0,
                                                      0, 0, 0, 0, 16, 0, 0, 0};
    /* The header, and two lines for each record. -837280 is 0xfff33960, and -512 is 0xfffffe00. */
    static const uint8_t two[BRADAWLET_SHEET(2)] = {
        2,    0,    0,    0,    16,   0,    0,    0,    10,   0,    0,    0,    64,   0,    0,    0,
        2,    0,    0,    0,    1,    0,    0,    0,    3,    0,    0,    0,
        0xff, 0xff, 0xff, 0xff, 0,    0,    0,    0,    11,   0,    0,    0,
        0xff, 0xff, 0xff, 0x7f, 0x60, 0x39, 0xf3, 0xff, 0,    0,    0,    0,
        1,    0,    0,    0,    0,    0xfe, 0xff, 0xff, 0xa0, 5,    0,    0};
    const size_t words = BRADAWLET_WORDS(CELLS) + EXTRA;
    int32_t *table = rubbish(words);

    check("1: rubbish not opened", bradawlet_open(table, words) == BRADAWLET_NOT_SOUND);
    check_next("a step over rubbish", table, words, 0, BRADAWLET_NONE, none);
    check_write("1: rubbish", table, words, 16, BRADAWLET_NOT_SOUND, empty, 0);
    check_write("1 before 13", table, words, 0, BRADAWLET_NOT_SOUND, empty, 0);
    check_write("1: no words", table, 0, 16, BRADAWLET_NOT_SOUND, empty, 0);

    check("a fresh table", bradawlet_fresh(table, words, CELLS) == BRADAWLET_DONE);
    check("a fresh table opened", bradawlet_open(table, words) == BRADAWLET_DONE);
    check_next("no cell in a fresh table", table, words, 0, BRADAWLET_NONE, none);
    for (size_t length = 0; length < 20; length++)
        check_write("a fresh table's sheet", table, words, length,
                    length < 16 ? BRADAWLET_SHORT_BYTES : BRADAWLET_DONE, empty, 16);

    put(table, late);
    put(table, expired);
    put(table, ended);
    put(table, brief);
    table[1] = 10;
    for (size_t length = 0; length < 80; length++)
        check_write("two live cells", table, words, length,
                    length < 64 ? BRADAWLET_SHORT_BYTES : BRADAWLET_DONE, two, 64);
    check_next("the first cell", table, words, 0, BRADAWLET_ONE, brief);
    check_next("the first from below 0", table, words, INT32_MIN, BRADAWLET_ONE, brief);
    check_next("the second cell", table, words, 2, BRADAWLET_ONE, late);
    check_next("past the cell that expires now", table, words, 3, BRADAWLET_ONE, late);
    check_next("past the expired cell", table, words, 5, BRADAWLET_ONE, late);
    check_next("the last cell once more", table, words, INT32_MAX - 1, BRADAWLET_ONE, late);
    check_next("no more", table, words, INT32_MAX, BRADAWLET_NONE, none);
    give_back(table);
    check_reads(two);
}

static void check_tracks(const char *name, const int32_t *table, size_t words, size_t length,
                         int32_t number, const char *text)
{
    check_written(name, bradawlet_tracks, table, words, length, number, text, strlen(text));
}

/* Into bytes of every length, some longer than the text. */
static void check_all_lengths(const char *name, const int32_t *table, size_t words, const char *text)
{
    for (size_t length = 0; length < strlen(text) + EXTRA; length++)
        check_tracks(name, table, words, length,
                     length < strlen(text) ? BRADAWLET_SHORT_BYTES : BRADAWLET_DONE, text);
}

/* Reads bytes as a line: the cell that they give, or 14 and zeros where there is none. */
static void check_bytes_read(const char *name, int32_t id, const void *bytes, size_t length,
                             const int32_t *cell)
{
    static const int32_t none[BRADAWLET_RECORD];
    int32_t *numbers = rubbish(BRADAWLET_RECORD);
    uint8_t *line = lend(length);
    memcpy(line, bytes, length);
    check(name, bradawlet_read_track(id, line, length, numbers) ==
                    (cell == NULL ? BRADAWLET_NO_TRACK : BRADAWLET_DONE));
    check(name, memcmp(numbers, cell == NULL ? none : cell, sizeof none) == 0);
    check(name, memcmp(line, bytes, length) == 0);
    give_back(line);
    give_back(numbers);
}

static void check_line_read(int32_t id, const char *line, const int32_t *cell)
{
    check_bytes_read(line, id, line, strlen(line), cell);
}

/* Expired, expired in this very minute, and three others, one as far out and as fast as can be. */
static void check_texts(void)
{
    static const int32_t late[6] = {INT32_MAX, -837280, 0, 1, -512, 1440}, still[6] = {3, 0, 0, 7, 0, 11},
                         expired[6] = {5, 0, 0, 0, 0, 9}, ended[6] = {4, 1, 3, -1, 0, 10},
                         early[6] = {2, 1, 3, -1, 0, 12};
    static const char three[] = "LINESTRING M (310 -10 10, 370 -10 12)\n"
                                "LINESTRING M (0 70 10, 0 70 11)\n"
                                "LINESTRING M (-8372800 -51190 10, -8372800 -7372790 1440)\n";
    const size_t words = BRADAWLET_WORDS(CELLS) + EXTRA;
    int32_t *table = rubbish(words);

    check_tracks("1: no tracks of rubbish", table, words, sizeof three, BRADAWLET_NOT_SOUND, "");
    check_tracks("1: no tracks of rubbish, no bytes", table, words, 0, BRADAWLET_NOT_SOUND, "");
    check_tracks("1: no tracks of no words", table, 0, sizeof three, BRADAWLET_NOT_SOUND, "");
    check("a fresh table", bradawlet_fresh(table, words, CELLS) == BRADAWLET_DONE);
    check_all_lengths("no tracks in a fresh table", table, words, "");
    put(table, expired);
    table[1] = 10;
    check_all_lengths("no track of an expired cell", table, words, "");
    put(table, ended);
    check_all_lengths("no track in the minute of the expiry", table, words, "");
    put(table, late);
    put(table, still);
    put(table, early);
    check_all_lengths("three tracks", table, words, three);
    check_line_read(4, "POINT M (310 -10 10)\n", NULL);
    check_line_read(2, "LINESTRING M (310 -10 10, 370 -10 12)\n", early);
    check_line_read(3, "LINESTRING M (0 70 10, 0 70 11)\n", still);
    check_line_read(INT32_MAX, "LINESTRING M (-8372800 -51190 10, -8372800 -7372790 1440)\n", late);
    table[16 + 96 * table[2]] = 9;
    check_tracks("1 before 13", table, words, 0, BRADAWLET_NOT_SOUND, "");
    check_tracks("1: nine entries", table, words, sizeof three, BRADAWLET_NOT_SOUND, "");
    give_back(table);
}

/* Little-endian words, as a sheet has them. */
static uint8_t *put_words(uint8_t *bytes, const int32_t *numbers, size_t count)
{
    for (size_t i = 0; i < 4 * count; i++)
        *bytes++ = (uint8_t)((uint32_t)numbers[i / 4] >> 8 * (i % 4));
    return bytes;
}

/* As many of the longest lines as there can be. No report gives such a cell, so a sheet does. */
static void check_longest(void)
{
    static const char longest[] = "LINESTRING M (-13492800 -13492800 1000, -15745600 -15745600 1440)\n";
    static char text[BRADAWLET_TRACKS(256) + 1];
    const int32_t header[4] = {256, 16, 1000, BRADAWLET_SHEET(256)};
    const size_t words = BRADAWLET_WORDS(256);
    int32_t *table = rubbish(words), cell[6] = {0, -837280, -512, -837280, -512, 1440};
    uint8_t *sheet = lend(BRADAWLET_SHEET(256)), *record = put_words(sheet, header, 4);

    for (cell[0] = 1; cell[0] <= 256; cell[0]++) {
        record = put_words(record, cell, BRADAWLET_RECORD);
        memcpy(text + BRADAWLET_TRACKS(cell[0] - 1), longest, BRADAWLET_TRACK);
        check_bytes_read("the longest line", cell[0], longest, BRADAWLET_TRACK, cell);
    }
    check("the longest line", strlen(longest) == BRADAWLET_TRACK && strlen(text) == 16896);
    check("256 far cells",
          bradawlet_read(table, words, 256, sheet, BRADAWLET_SHEET(256)) == BRADAWLET_DONE);
    check_tracks("256 longest lines", table, words, 16896, BRADAWLET_DONE, text);
    check_tracks("256 longest lines, bytes left", table, words, 16896 + EXTRA, BRADAWLET_DONE, text);
    check_tracks("13: a byte too few", table, words, 16895, BRADAWLET_SHORT_BYTES, text);
    check_tracks("13: room for one line", table, words, BRADAWLET_TRACK, BRADAWLET_SHORT_BYTES, text);
    give_back(sheet);
    give_back(table);
}

static void check_lines(void)
{
    static const int32_t no_identifiers[] = {0, -1, -7, INT32_MIN};
    for (size_t i = 0; i < COUNT(lines_with_cells); i++) {
        const int32_t *cell = lines_with_cells[i].cell;
        check_line_read(cell[0], lines_with_cells[i].line, cell);
        for (size_t k = 0; k < COUNT(no_identifiers); k++)
            check_line_read(no_identifiers[k], lines_with_cells[i].line, NULL);
    }
    for (size_t i = 0; i < COUNT(lines_with_wrong_numbers); i++)
        check_line_read(7, lines_with_wrong_numbers[i], NULL);
    for (size_t i = 0; i < COUNT(lines_spelt_otherwise); i++)
        check_line_read(7, lines_spelt_otherwise[i], NULL);
}

/* A line cut short at every byte, from either side; with one byte changed; with one byte after it. */
static void check_ends(void)
{
    static const char line[] = "LINESTRING M (1000 2000 10, 2500 1100 40)\n";
    static const int32_t cell[BRADAWLET_RECORD] = {7, 50, 5, 230, -3, 40};
    const size_t whole = sizeof line - 1;
    uint8_t bytes[sizeof line];

    check_bytes_read("a line", 7, line, whole, cell);
    for (size_t length = 0; length < whole; length++) {
        check_bytes_read("14: a line's first bytes", 7, line, length, NULL);
        check_bytes_read("14: a line's last bytes", 7, line + whole - length, length, NULL);
        memcpy(bytes, line, sizeof line);
        bytes[length] = 0;
        check_bytes_read("14: a zero in a line", 7, bytes, whole, NULL);
        bytes[length] = (uint8_t)(line[length] ^ 0x80);
        check_bytes_read("14: a bit too many", 7, bytes, whole, NULL);
    }
    for (int last = 0; last < 256; last++) {
        memcpy(bytes, line, sizeof line);
        bytes[whole] = (uint8_t)last;
        check_bytes_read("14: a byte after the line", 7, bytes, sizeof line, NULL);
        bytes[whole - 1] = (uint8_t)last;
        check_bytes_read("the end of a line", 7, bytes, whole, last == '\n' ? cell : NULL);
    }
}

/* A line with megabytes of one byte in it: before and after a number, between two, and at the ends. */
static void check_endless(void)
{
    static const char line[] = "LINESTRING M (1000 2000 10, 2500 1100 40)\n";
    static const struct {
        size_t at;
        char byte;
    } more[] = {{0, ' '}, {14, '0'}, {14, '-'}, {18, '0'}, {18, ' '}, {26, '9'}, {40, '1'}, {42, '\n'}};
    const size_t whole = sizeof line - 1, many = 4 << 20;
    uint8_t *bytes = malloc(whole + many);
    if (bytes == NULL)
        lent_stop("no megabytes");
    for (size_t i = 0; i < COUNT(more); i++) {
        size_t at = more[i].at;
        memcpy(bytes, line, at);
        memset(bytes + at, more[i].byte, many);
        memcpy(bytes + at + many, line + at, whole - at);
        check_bytes_read("14: an endless line", 7, bytes, whole + many, NULL);
    }
    free(bytes);
}

/* Compares the table after a call with what it was: the clock is set, or not a word is touched. */
static void check_left(const char *name, const int32_t *table, size_t words, int32_t *before,
                       int32_t number, int32_t minute)
{
    size_t need = BRADAWLET_WORDS(before[0]);
    if (number == BRADAWLET_DONE) {
        check(name, table[0] == before[0] && table[1] == minute);
        check(name, bradawlet_open(table, words) == BRADAWLET_DONE);
        check(name, all_rubbish(table + need, words - need));
    } else {
        check(name, memcmp(table, before, words * sizeof *table) == 0);
    }
    give_back(before);
}

/* A report is identifier, x, y, x velocity, y velocity, minute and expiry. */
static void check_report(const char *name, int32_t *table, size_t words, const int32_t r[7],
                         int32_t number)
{
    int32_t *before = copy(table, words);
    check(name, bradawlet_report(table, words, r[0], r[1], r[2], r[3], r[4], r[5], r[6]) == number);
    check_left(name, table, words, before, number, r[5]);
}

static void check_drop(const char *name, int32_t *table, size_t words, int32_t id, int32_t minute,
                       int32_t number)
{
    int32_t *before = copy(table, words);
    check(name, bradawlet_drop(table, words, id, minute) == number);
    check_left(name, table, words, before, number, minute);
}

/* A window is start, end, xlow, xhigh, ylow and yhigh; its hit, if there is one, is this cell. */
static void check_window(const char *name, const int32_t *table, size_t words, const int32_t w[6],
                         int32_t number, int32_t hit)
{
    int32_t *list = rubbish(PLACES);
    struct query q = {w[0], w[1], {w[2], w[3], w[4], w[5]}, {0, 0, 0, 0}};
    struct answer a = window(table, words, list, PLACES, q);
    check(name, a.number == number && a.hits == (hit > 0) && list[0] == (hit > 0 ? hit : RUBBISH));
    give_back(list);
}

/* A cell and a moving query by numbers: those of a report; start, end; the edges at either. */
static const struct {
    const char *name;
    int32_t n[17], answer;
} chases[] = {
    {"P5", {1, 1, 0, 2, 0, 0, 40, 0, 10, 0, 2, 0, 0, 20, 22, 0, 0}, 1},
    {"P6", {1, 3, 0, 2, 0, 0, 40, 0, 10, 0, 2, 0, 0, 20, 22, 0, 0}, 0},
    {"P7", {1, 3, 0, 1, 0, 0, 40, 0, 10, 0, 2, 0, 0, 20, 22, 0, 0}, 1},
    {"P7, expired as it comes", {1, 3, 0, 1, 0, 0, 1, 0, 10, 0, 2, 0, 0, 20, 22, 0, 0}, 0},
    {"P7, expired a minute later", {1, 3, 0, 1, 0, 0, 2, 0, 10, 0, 2, 0, 0, 20, 22, 0, 0}, 1},
    {"P7 from its expiry on", {1, 3, 0, 1, 0, 0, 2, 2, 3, 4, 6, 0, 0, 6, 8, 0, 0}, 0},
    {"6: as reported", {1, 1, 0, 2, 0, 0, 0, 0, 10, 0, 2, 0, 0, 20, 22, 0, 0}, 6},
    {"6: before the report", {1, 1, 0, 2, 0, 5, 4, 5, 10, 0, 2, 0, 0, 20, 22, 0, 0}, 6},
    {"6 before 7: as reported", {1, 1, 0, 2, 0, 5, 5, 5, 5, 0, 2, 0, 0, 20, 22, 0, 0}, 6},
    {"5 before 6: as reported", {1, 1, 0, 2, 0, 5, 5, 4, 10, 0, 2, 0, 0, 20, 22, 0, 0}, 5},
    {"4 before 6: as reported", {1, 1, 0, 2, 0, 5, 5, 5, 10, 0, 2, 0, 0, 20, 100001, 0, 0}, 4},
    {"7: start equals end", {1, 1, 0, 2, 0, 5, 6, 5, 5, 0, 2, 0, 0, 20, 22, 0, 0}, 7},
};

static void check_chases(void)
{
    for (size_t i = 0; i < COUNT(chases); i++) {
        const int32_t *n = chases[i].n;
        check(chases[i].name,
              bradawlet_meets_moving(n[0], n[1], n[2], n[3], n[4], n[5], n[6], n[7], n[8], n[9], n[10], n[11],
                                     n[12], n[13], n[14], n[15], n[16]) == chases[i].answer);
    }
}

/* A whole run of the desk program, by calls. */
static void check_desk_run(void)
{
    const size_t words = BRADAWLET_WORDS(256) + EXTRA;
    int32_t *table = rubbish(words);
    check("a fresh table", bradawlet_fresh(table, words, 256) == BRADAWLET_DONE);
    check_report("cell 7", table, words, (int32_t[7]){7, 100, 200, 5, -3, 10, 40}, 0);
    check_report("cell 9", table, words, (int32_t[7]){9, 0, 0, 3, 3, 10, 30}, 0);
    check_all_lengths("two tracks", table, words,
                      "LINESTRING M (1000 2000 10, 2500 1100 40)\nLINESTRING M (0 0 10, 600 600 30)\n");
    check_window("7 at 20", table, words, (int32_t[6]){20, 20, 150, 150, 170, 170}, 0, 7);
    check_window("9 at a third", table, words, (int32_t[6]){10, 11, 1, 1, 1, 1}, 0, 9);
    check_window("5: before 10", table, words, (int32_t[6]){9, 11, 0, 1, 0, 1}, 5, 0);
    check_drop("8: 9 has expired", table, words, 9, 31, BRADAWLET_NOT_LIVE);
    check_window("the clock is still 10", table, words, (int32_t[6]){10, 10, 0, 0, 0, 0}, 0, 9);
    check_report("6: expired", table, words, (int32_t[7]){9, 0, 0, 0, 0, 12, 11}, 6);
    check_drop("7 dropped", table, words, 7, 12, 0);
    check_window("9 alone", table, words, (int32_t[6]){12, 40, -500, 500, -500, 500}, 0, 9);
    check_window("7: transposed", table, words, (int32_t[6]){40, 12, 0, 1, 0, 1}, 7, 0);
    check_all_lengths("the track of 9", table, words, "LINESTRING M (60 60 12, 600 600 30)\n");
    give_back(table);
}

/* Nine live cells: 2 and 4 to 9 expire at 30, 3 at 31, and one later. In the minute of their expiry
   the seven are gone, and seven others have their room, with the same identifier or another. */
static void check_successors(int32_t *table, size_t words)
{
    static const int32_t before[6] = {29, 29, 409, 409, 0, 0}, at_expiry[6] = {30, 30, 410, 410, 0, 0};
    check_report("9: a minute before", table, words, (int32_t[7]){50, 0, 0, 0, 0, 29, 40}, BRADAWLET_FULL);
    check_window("4 a minute before", table, words, before, 0, 4);
    check_window("4 no more at its expiry", table, words, at_expiry, 0, 0);
    check_drop("8: at the expiry", table, words, 4, 30, BRADAWLET_NOT_LIVE);
    check_report("6: at the expiry", table, words, (int32_t[7]){4, 410, 0, 1, 0, 30, 30}, 6);
    int32_t *other = copy(table, words);
    check_report("another's successor", other, words, (int32_t[7]){51, 410, 0, 1, 0, 30, 31}, 0);
    check_window("that successor alone", other, words, at_expiry, 0, 51);
    check_drop("8: another's predecessor", other, words, 4, 30, BRADAWLET_NOT_LIVE);
    give_back(other);
    check_report("its own successor", table, words, (int32_t[7]){4, 410, 0, 1, 0, 30, 31}, 0);
    check_window("the successor alone", table, words, at_expiry, 0, 4);
    check_report("of another number", table, words, (int32_t[7]){51, 510, 0, 1, 0, 30, 31}, 0);
    check_window("51 alone, where 5 was", table, words, (int32_t[6]){30, 30, 510, 510, 0, 0}, 0, 51);
    for (int32_t id = 52; id < 52 + CELLS - 4; id++)
        check_report("at the expiry", table, words, (int32_t[7]){id, 0, id, 0, 0, 30, 31}, 0);
    check_report("9: full again", table, words, (int32_t[7]){70, 0, 0, 0, 0, 30, 31}, BRADAWLET_FULL);
    check_drop("8: expired", table, words, 2, 30, BRADAWLET_NOT_LIVE);
    check_drop("dropped in the minute before", table, words, 4, 30, BRADAWLET_DONE);
    check_drop("8: all but one at 31", table, words, 51, 31, BRADAWLET_NOT_LIVE);
    check_drop("the one", table, words, INT32_MAX, 31, BRADAWLET_DONE);
}

/* Nothing lives at minute 1440: it can be asked for, and a table may stand there, but no cell is put
   in. */
static void check_last_minute(void)
{
    static const uint8_t empty[BRADAWLET_SHEET(0)] = {0,    0, 0, 0, 16, 0, 0, 0,
                                                      0xa0, 5, 0, 0, 16, 0, 0, 0};
    static const int32_t header[4] = {1, 16, 1440, BRADAWLET_SHEET(1)},
                         cell[6] = {1, 0, 0, 0, 0, 1440}, at_1440[7] = {1, 0, 0, 0, 0, 1440, 1440},
                         asked[6] = {1440, 1440, -9, 9, -9, 9};
    const size_t words = BRADAWLET_WORDS(CELLS);
    uint8_t sheet[BRADAWLET_SHEET(1)];
    int32_t *table = rubbish(words);

    check("a fresh table", bradawlet_fresh(table, words, CELLS) == BRADAWLET_DONE);
    check_report("6: at 1440", table, words, at_1440, 6);
    check_report("a minute to live", table, words, (int32_t[7]){1, 0, 0, 0, 0, 1439, 1440}, 0);
    check_report("6: at 1440, live", table, words, at_1440, 6);
    check_window("there at 1439", table, words, (int32_t[6]){1439, 1440, -9, 9, -9, 9}, 0, 1);
    check_window("not at 1440", table, words, asked, 0, 0);
    check_drop("8: at 1440", table, words, 1, 1440, BRADAWLET_NOT_LIVE);
    check_drop("dropped at 1439", table, words, 1, 1439, BRADAWLET_DONE);

    check_read("no cell at 1440", words, CELLS, empty, sizeof empty, BRADAWLET_DONE);
    put_words(put_words(sheet, header, 4), cell, BRADAWLET_RECORD);
    check_read("12: a cell at 1440", words, CELLS, sheet, sizeof sheet, BRADAWLET_BAD_RECORD);
    sheet[8]--;
    check_read("a cell at 1439", words, CELLS, sheet, sizeof sheet, BRADAWLET_DONE);
    check("a table at 1440",
          bradawlet_read(table, words, CELLS, empty, sizeof empty) == BRADAWLET_DONE && table[1] == 1440);
    check_report("6: a table at 1440", table, words, at_1440, 6);
    check_report("5: a table at 1440", table, words, (int32_t[7]){1, 0, 0, 0, 0, 1439, 1440}, 5);
    check_drop("8: a table at 1440", table, words, 1, 1440, BRADAWLET_NOT_LIVE);
    check_window("none in a table at 1440", table, words, asked, 0, 0);
    check_tracks("no line at 1440", table, words, 0, BRADAWLET_DONE, "");
    give_back(table);
}

/* Nine cells stand in two leaves below the root, and all expire at 30: from then on neither leaf is
   opened. */
static void check_opened(const int32_t *table, size_t words)
{
    const struct query before = {29, 29, {-9999, 9999, -9999, 9999}, {0, 0, 0, 0}};
    const struct query at_expiry = {30, 40, {-9999, 9999, -9999, 9999}, {-9999, 9999, -9999, 9999}};
    int32_t *list = rubbish(CELLS);
    check("all nodes opened", is(window(table, words, list, CELLS, before), 0, CELLS, 3));
    check("the root alone opened", is(window(table, words, list, CELLS, at_expiry), 0, 0, 1));
    check("the root alone opened", is(moving(table, words, list, CELLS, at_expiry), 0, 0, 1));
    give_back(list);
}

static void check_full(void)
{
    const size_t words = BRADAWLET_WORDS(CELLS) + EXTRA;
    const int32_t other[7] = {INT32_MAX, 0, 0, 512, -512, 20, 1440};
    int32_t *table = rubbish(words);
    check("a fresh table", bradawlet_fresh(table, words, CELLS) == BRADAWLET_DONE);
    for (int32_t id = 1; id <= CELLS; id++)
        check_report("filled", table, words, (int32_t[7]){id, 100 * id, 0, 1, 0, 20, 30}, 0);
    check_opened(table, words);
    check_report("9: full", table, words, other, BRADAWLET_FULL);
    check_report("6 before 9", table, words, (int32_t[7]){50, 0, 0, 0, 0, 20, 19}, 6);
    check_report("6 before 9: as reported", table, words, (int32_t[7]){50, 0, 0, 0, 0, 20, 20}, 6);
    check_report("6: live, as reported", table, words, (int32_t[7]){3, 0, 0, 0, 0, 20, 20}, 6);
    check_report("5 before 6", table, words, (int32_t[7]){50, 0, 0, 0, 0, 19, 18}, 5);
    check_report("5 before 6: as reported", table, words, (int32_t[7]){50, 0, 0, 0, 0, 19, 19}, 5);
    check_report("4 before 6: as reported", table, words, (int32_t[7]){50, 0, 0, 0, 513, 20, 20}, 4);
    check_report("4 before 5", table, words, (int32_t[7]){0, 0, 0, 0, 0, 19, 18}, 4);
    check_report("4: too fast", table, words, (int32_t[7]){1, 0, 0, 513, 0, 20, 30}, 4);
    check_report("replaced when full", table, words, (int32_t[7]){3, -500, 0, 0, 0, 20, 31}, 0);
    check_window("there", table, words, (int32_t[6]){30, 30, -500, -500, 0, 0}, 0, 3);
    check_window("there no more", table, words, (int32_t[6]){31, 31, -500, -500, 0, 0}, 0, 0);
    check_window("not there", table, words, (int32_t[6]){20, 20, 300, 300, 0, 0}, 0, 0);
    check_drop("8: not held", table, words, 50, 20, BRADAWLET_NOT_LIVE);
    check_drop("4: no identifier", table, words, 0, 20, BRADAWLET_OUT_OF_RANGE);
    check_drop("4: no minute", table, words, 1, 1441, BRADAWLET_OUT_OF_RANGE);
    check_drop("5: before the clock", table, words, 50, 19, BRADAWLET_BEFORE_CLOCK);
    check_drop("dropped", table, words, 1, 20, 0);
    check_drop("8: dropped before", table, words, 1, 20, BRADAWLET_NOT_LIVE);
    check_report("in its room", table, words, other, 0);
    check_successors(table, words);
    table[16 + 96 * table[2]] = 9;
    check_report("1 before 4", table, words, (int32_t[7]){0, 0, 0, 0, 0, 31, 31}, 1);
    check_drop("1: nine entries", table, words, 3, 31, BRADAWLET_NOT_SOUND);
    give_back(table);
}

/* No words, no list, no bytes and no line may be null. */
static void check_null(void)
{
    static const int32_t none[BRADAWLET_RECORD];
    static const struct query whole = {0, 9, {-9, 9, -9, 9}, {-9, 9, -9, 9}};
    const size_t words = BRADAWLET_WORDS(CELLS);
    int32_t *table = rubbish(words), *total = rubbish(1), *numbers = rubbish(BRADAWLET_RECORD);

    check("2: fresh in no words", bradawlet_fresh(NULL, 0, 0) == BRADAWLET_BAD_CAPACITY);
    check("3: fresh in no words", bradawlet_fresh(NULL, 0, 1) == BRADAWLET_SHORT_TABLE);
    check("1: a report to no words",
          bradawlet_report(NULL, 0, 1, 0, 0, 0, 0, 0, 9) == BRADAWLET_NOT_SOUND);
    check("1: a drop from no words", bradawlet_drop(NULL, 0, 1, 0) == BRADAWLET_NOT_SOUND);
    check("1: a window of no words", is(window(NULL, 0, NULL, 0, whole), 1, 0, 0));
    check("1: a moving query of no words", is(moving(NULL, 0, NULL, 0, whole), 1, 0, 0));
    check("1: no words opened", bradawlet_open(NULL, 0) == BRADAWLET_NOT_SOUND);
    check_next("a step over no words", NULL, 0, 0, BRADAWLET_NONE, none);
    check("1: no words written",
          bradawlet_write(NULL, 0, NULL, 0, total) == BRADAWLET_NOT_SOUND && *total == 0);
    *total = RUBBISH;
    check("1: no tracks of no words",
          bradawlet_tracks(NULL, 0, NULL, 0, total) == BRADAWLET_NOT_SOUND && *total == 0);
    check("14: no line", bradawlet_read_track(1, NULL, 0, numbers) == BRADAWLET_NO_TRACK);
    check("14: no line", memcmp(numbers, none, sizeof none) == 0);
    give_back(numbers);
    check("3: read into no words", bradawlet_read(NULL, 0, 1, NULL, 0) == BRADAWLET_SHORT_TABLE);
    check("11: no bytes read",
          bradawlet_read(table, words, CELLS, NULL, 0) == BRADAWLET_BAD_HEADER && all_rubbish(table, words));

    check("a fresh table", bradawlet_fresh(table, words, CELLS) == BRADAWLET_DONE);
    check("no hits for no list", is(window(table, words, NULL, 0, whole), 0, 0, 1));
    check("no hits for no list", is(moving(table, words, NULL, 0, whole), 0, 0, 1));
    *total = RUBBISH;
    check("no tracks to no bytes",
          bradawlet_tracks(table, words, NULL, 0, total) == BRADAWLET_DONE && *total == 0);
    check("a cell", bradawlet_report(table, words, 1, 0, 0, 0, 0, 0, 9) == BRADAWLET_DONE);
    check("10: a hit for no list", is(window(table, words, NULL, 0, whole), 10, 1, 0));
    check("10: a hit for no list", is(moving(table, words, NULL, 0, whole), 10, 1, 0));
    check("13: written to no bytes",
          bradawlet_write(table, words, NULL, 0, total) == BRADAWLET_SHORT_BYTES && *total == 0);
    *total = RUBBISH;
    check("13: a track to no bytes",
          bradawlet_tracks(table, words, NULL, 0, total) == BRADAWLET_SHORT_BYTES && *total == 0);
    give_back(total);
    give_back(table);
}

static void check_capacities(void)
{
    static const int32_t capacities[] = {1, 2, 3, CELLS, 255, 256};
    for (size_t i = 0; i < COUNT(capacities); i++) {
        size_t need = BRADAWLET_WORDS(capacities[i]);
        check_fresh(capacities[i], need - 1, BRADAWLET_SHORT_TABLE);
        check_fresh(capacities[i], need, BRADAWLET_DONE);
        check_fresh(capacities[i], need + EXTRA, BRADAWLET_DONE);
    }
    check_fresh(256, 12399, BRADAWLET_SHORT_TABLE);
    check_fresh(256, 12400, BRADAWLET_DONE);
    check_fresh(1, 0, BRADAWLET_SHORT_TABLE);
    check_fresh(0, 0, BRADAWLET_BAD_CAPACITY);
    check_fresh(0, 112, BRADAWLET_BAD_CAPACITY);
    check_fresh(257, BRADAWLET_WORDS(257), BRADAWLET_BAD_CAPACITY);
    check_fresh(INT32_MIN, 112, BRADAWLET_BAD_CAPACITY);
    check_fresh(INT32_MAX, 12400, BRADAWLET_BAD_CAPACITY);
}

int main(void)
{
    /* A failure is printed even if the library or the sanitizer ends the program after it. */
    setvbuf(stdout, NULL, _IOLBF, BUFSIZ);
    for (lent_side = 0; lent_side < LENT_SIDES; lent_side++) {
        check_null();
        check_capacities();
        check_queries();
        check_sheets();
        check_texts();
        check_longest();
        check_lines();
        check_ends();
        check_endless();
        check_desk_run();
        check_full();
        check_last_minute();
    }
    check_chases();
    return verdict();
}
