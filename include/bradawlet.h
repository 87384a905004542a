/*
 * Bradawlet: an index of moving storm cells, kept in a table of words that the
 * caller lends.
 *
 * Link with libbradawlet.a. It has every call that is declared here, and those
 * of bradawlet_viewer.h, which this header includes. docs/MANUAL.md has the
 * rules, examples/ has whole programs.
 *
 * Positions and edges are in units of 10 m, velocities in units per minute, and
 * minutes are whole minutes of the day.
 *
 * Every call takes any numbers, and any words and bytes in what it is lent: what
 * it cannot answer it refuses by number (enum bradawlet_refusal), but a step of the
 * leafing gives none. Keep the result in an int32_t, and look at it before anything
 * else that a call gives back.
 *
 * What a caller must keep:
 *
 *   Size     A table, a list, bytes and a line are memory of as many words or bytes
 *            as is said, aligned as C asks. The single numbers that are given back,
 *            and the BRADAWLET_RECORD numbers of a cell, are memory for just these.
 *   Null     A table, a list, bytes or a line may be null where the number beside it
 *            is 0. No other pointer may be null.
 *   Apart    What a call writes must be apart from all else that it is lent; the
 *            pointers that this is asked of are marked BRADAWLET_RESTRICT.
 *   Alone    Nothing else may write to what is lent, and nothing else may read
 *            what a call writes, until the call returns. Calls keep no state, so
 *            they may run at once on different tables, and those that do not
 *            change the table on the same one.
 *   Stack    A call takes at most BRADAWLET_STACK bytes of stack on a sound table,
 *            and at most BRADAWLET_STACK_ANY_WORDS on any words.
 *
 * The library allocates nothing and needs memcpy and memset of the C library, and
 * nothing else of it or of any other. The headers are C99 and C++98, and later.
 */
#ifndef BRADAWLET_H
#define BRADAWLET_H

#include "bradawlet_refusals.h"
#include "bradawlet_viewer.h"

#include <stddef.h>
#include <stdint.h>

/* C++ has no such word, but its compilers have one of their own. */
#if defined(__cplusplus)
#if defined(__GNUC__)
#define BRADAWLET_RESTRICT __restrict__
#else
#define BRADAWLET_RESTRICT
#endif
#else
#define BRADAWLET_RESTRICT restrict
#endif

/* A number as a size, by a cast that each language takes without a warning. */
#if defined(__cplusplus)
#define BRADAWLET_SIZE(number) static_cast<size_t>(number)
#else
#define BRADAWLET_SIZE(number) ((size_t)(number))
#endif

#ifdef __cplusplus
extern "C" {
#endif

/* The version of the calls. Before 0.3.0 the expiry itself was still part of a
   cell's life: docs/MANUAL.md, section 4, says what the change means for programs,
   and for tables and sheets that are kept. */
#define BRADAWLET_VERSION_MAJOR 0
#define BRADAWLET_VERSION_MINOR 3
#define BRADAWLET_VERSION_PATCH 0
#define BRADAWLET_VERSION "0.3.0"

/* The version of a table's layout. Tables of one layout can be kept over an
   upgrade of the library; where this number changes they cannot, and nothing in
   a table says which it is: keep the number beside a table that is stored. A
   sheet has no need of that. */
#define BRADAWLET_LAYOUT 1

/* The most cells that a table can be for. */
#define BRADAWLET_MOST_CELLS 256

/* The words that a table for so many cells needs, from 1 to 256: a constant where
   cells is one, but not for #if. */
#define BRADAWLET_WORDS(cells) (16 + 96 * (BRADAWLET_SIZE(cells) / 2 + 1))

/* The bytes of a sheet with so many cells, from 0 to 256, in the same way. */
#define BRADAWLET_SHEET(cells) (16 + 24 * BRADAWLET_SIZE(cells))

/* The bytes of the longest line that a cell gives, its line feed included, and the
   bytes that are enough for the lines of so many cells, from 0 to 256, in the same
   way. No zero byte is counted: fgets needs one more for the longest line. */
#define BRADAWLET_TRACK 66
#define BRADAWLET_TRACKS(cells) (BRADAWLET_TRACK * BRADAWLET_SIZE(cells))

/* The numbers of a cell, as a sheet has them: identifier, x, x velocity, y, y
   velocity and expiry, with x and y as its track has them at minute 0. A report's
   numbers stand in another order. */
#define BRADAWLET_RECORD 6

/* The stack that a call takes at the most, in bytes, on a sound table, and on any
   words: at most three times what was measured. */
#define BRADAWLET_STACK 20480
#define BRADAWLET_STACK_ANY_WORDS 98304

/* What an accepted call on a table, and the reading of a line, gives: no refusal. */
enum bradawlet_accepted {
    BRADAWLET_DONE = 0
};

/* What a step of the leafing gives: it is never refused. */
enum bradawlet_step {
    BRADAWLET_NONE = 0,
    BRADAWLET_ONE = 1
};

/*
 * Makes a fresh table: clock 0 and no cells.
 *
 *   table    any words; what they held is lost
 *   words    how many are lent
 *   cells    the most that the table is to hold    1 to 256
 *
 * The answer is BRADAWLET_DONE, or a refusal, for the first of these reasons that
 * holds:
 *
 *   BRADAWLET_BAD_CAPACITY   cells is outside its range
 *   BRADAWLET_SHORT_TABLE    words is below BRADAWLET_WORDS(cells)
 *
 * Words past BRADAWLET_WORDS(cells) are not touched, and a refusal touches none.
 */
int32_t bradawlet_fresh(int32_t *table, size_t words, int32_t cells);

/*
 * Puts a cell in, in the place of a live one of the same identifier, and sets
 * the table's clock to the report's minute.
 *
 *   table    the table; it may hold any words
 *   words    how many words are lent
 *   id       the cell's identifier                 1 to 2147483647
 *   x, y     where it is at the report's minute    -100000 to 100000 each
 *   vx, vy   how it moves from there               -512 to 512 each
 *   minute   when it is reported                   0 to 1440
 *   expiry   the minute from which on its track
 *            says nothing                          0 to 1440
 *
 * A cell is live as long as its expiry is after the clock. The expired ones
 * count as absent, whether or not the table still holds them: their room is used
 * again, and no query finds them. So a cell and its successor, reported in the
 * very minute of its expiry, are never found together. Nothing is live at minute
 * 1440, as no expiry is after it: a report at that minute is refused, and is one
 * at minute 0 of the next day's table.
 *
 * The answer is BRADAWLET_DONE: then the reported cell is live, and so are all
 * others that are not expired at its minute. Or it is a refusal, for the first
 * of these reasons that holds:
 *
 *   BRADAWLET_NOT_SOUND       the words are not a sound table
 *   BRADAWLET_OUT_OF_RANGE    an argument is outside its range
 *   BRADAWLET_BEFORE_CLOCK    minute is before the table's clock
 *   BRADAWLET_EXPIRES_FIRST   expiry is not after minute
 *   BRADAWLET_FULL            as many cells as the table is for, this one not
 *                             counted, are live at the minute
 *
 * Words past the number that the table needs are not touched, and a refusal
 * touches none.
 */
int32_t bradawlet_report(int32_t *table, size_t words, int32_t id, int32_t x, int32_t y,
                         int32_t vx, int32_t vy, int32_t minute, int32_t expiry);

/*
 * Takes a live cell out, and sets the table's clock to the drop's minute.
 *
 *   table    the table; it may hold any words
 *   words    how many words are lent
 *   id       the cell's identifier                 1 to 2147483647
 *   minute   when it is dropped                    0 to 1440
 *
 * The answer is BRADAWLET_DONE: then all other cells that are not expired at
 * the minute are live. Or it is a refusal, for the first of these reasons that
 * holds:
 *
 *   BRADAWLET_NOT_SOUND      the words are not a sound table
 *   BRADAWLET_OUT_OF_RANGE   an argument is outside its range
 *   BRADAWLET_BEFORE_CLOCK   minute is before the table's clock
 *   BRADAWLET_NOT_LIVE       no cell of this identifier is live at the minute
 *
 * Words past the number that the table needs are not touched, and a refusal
 * touches none.
 */
int32_t bradawlet_drop(int32_t *table, size_t words, int32_t id, int32_t minute);

/*
 * Lists the cells that meet a window.
 *
 *   table    the table, which is not changed; it may hold any words
 *   words    how many words are lent
 *   list     where the identifiers go
 *   places   how many there is room for; 0 will do for a question of how many
 *   start    the first minute asked about          0 to 1440
 *   end      the last minute asked about           0 to 1440
 *            (equal to start: that instant alone)
 *   xlow, xhigh, ylow, yhigh
 *            the edges of the rectangle            -100000 to 100000 each
 *   hits     gives how many cells meet the window
 *   opened   gives how many nodes of the tree were opened to find them
 *
 * A cell meets the window exactly when at one instant, from start to end and
 * before the cell's expiry, x and y both lie within the rectangle. Instants
 * between whole minutes count, and so do the edges, the start and the end, but
 * the expiry does not.
 *
 * The answer is BRADAWLET_DONE, and then the first places of the list, as many
 * as there are hits, have the identifiers of these cells in rising order; the
 * other places are not touched. Or it is a refusal, for the first of these
 * reasons that holds:
 *
 *   BRADAWLET_NOT_SOUND      the words are not a sound table
 *   BRADAWLET_OUT_OF_RANGE   an argument is outside its range
 *   BRADAWLET_BEFORE_CLOCK   start is before the table's clock
 *   BRADAWLET_BACKWARD       end is before start, or a low edge is above its
 *                            high edge
 *   BRADAWLET_SHORT_LIST     there are more hits than places
 *
 * A refusal leaves the list as it was and gives 0 in hits and in opened, but
 * BRADAWLET_SHORT_LIST gives the number of hits. A refusal is not an empty list:
 * look at the answer before hits.
 */
int32_t bradawlet_window(const int32_t *BRADAWLET_RESTRICT table, size_t words,
                         int32_t *BRADAWLET_RESTRICT list, size_t places, int32_t start, int32_t end,
                         int32_t xlow, int32_t xhigh, int32_t ylow, int32_t yhigh,
                         int32_t *BRADAWLET_RESTRICT hits, int32_t *BRADAWLET_RESTRICT opened);

/*
 * Lists the cells that meet a moving query: a rectangle that goes straight from
 * the first, at start, to the second, at end.
 *
 *   xlow, xhigh, ylow, yhigh
 *            the edges at start                    -100000 to 100000 each
 *   xlow2, xhigh2, ylow2, yhigh2
 *            the edges at end                      -100000 to 100000 each
 *
 * All else is as with bradawlet_window, and BRADAWLET_BACKWARD is given also
 * when start equals end and when a low edge of the second rectangle is above
 * its high edge. Between start and end the edges stand at fractions of a unit,
 * and those count as well.
 */
int32_t bradawlet_moving(const int32_t *BRADAWLET_RESTRICT table, size_t words,
                         int32_t *BRADAWLET_RESTRICT list, size_t places, int32_t start, int32_t end,
                         int32_t xlow, int32_t xhigh, int32_t ylow, int32_t yhigh,
                         int32_t xlow2, int32_t xhigh2, int32_t ylow2, int32_t yhigh2,
                         int32_t *BRADAWLET_RESTRICT hits, int32_t *BRADAWLET_RESTRICT opened);

/*
 * Says whether a table can be leafed through. Ask it first: it alone tells a
 * table without live cells from words that are no table.
 *
 *   table    the table, which is not changed; it may hold any words
 *   words    how many words are lent
 *
 * The answer is BRADAWLET_DONE, or BRADAWLET_NOT_SOUND if the words are not a
 * sound table.
 */
int32_t bradawlet_open(const int32_t *table, size_t words);

/*
 * Gives the live cell with the least identifier above last: a step of a leafing
 * through the live cells by rising identifier.
 *
 *   table    the table, which is not changed; it may hold any words
 *   words    how many words are lent
 *   last     0 for the first cell, then the identifier that was given last; it
 *            may be any number
 *   numbers  gives the BRADAWLET_RECORD numbers of the cell, not in the order of a
 *            report's
 *
 * The answer is BRADAWLET_ONE. Or it is BRADAWLET_NONE, and the numbers are 0: no
 * more are left, or the words are not a sound table. So it is an answer only
 * after bradawlet_open gave BRADAWLET_DONE.
 */
int32_t bradawlet_next(const int32_t *BRADAWLET_RESTRICT table, size_t words, int32_t last,
                       int32_t *BRADAWLET_RESTRICT numbers);

/*
 * Writes the sheet of a table: its clock and its live cells, those whose expiry
 * is after the clock, by rising identifier. bradawlet_viewer.h says what a sheet's
 * bytes are, with bradawlet_sheet.
 *
 *   table    the table, which is not changed; it may hold any words
 *   words    how many words are lent
 *   bytes    where the sheet goes
 *   length   how many bytes there is room for
 *   total    gives how many bytes the sheet has
 *
 * The answer is BRADAWLET_DONE, and then the first bytes, as many as the total,
 * are the sheet; the others are not touched. Or it is a refusal, for the first of
 * these reasons that holds:
 *
 *   BRADAWLET_NOT_SOUND     the words are not a sound table
 *   BRADAWLET_SHORT_BYTES   the sheet is longer than the bytes
 *
 * Then no byte is touched and the total is 0. BRADAWLET_SHEET(256) bytes are
 * enough for any table.
 */
int32_t bradawlet_write(const int32_t *BRADAWLET_RESTRICT table, size_t words,
                        uint8_t *BRADAWLET_RESTRICT bytes, size_t length,
                        int32_t *BRADAWLET_RESTRICT total);

/*
 * Reads a sheet: the words become a table for so many cells that holds the
 * sheet's cells, with the sheet's clock.
 *
 *   table    any words; what they held is lost
 *   words    how many are lent
 *   cells    the most that the table is to hold    1 to 256
 *   bytes    the sheet, just as long as it says
 *   length   how many bytes there are
 *
 * The answer is BRADAWLET_DONE, or a refusal, for the first of these reasons that
 * holds:
 *
 *   BRADAWLET_BAD_CAPACITY   cells is outside its range
 *   BRADAWLET_SHORT_TABLE    words is below BRADAWLET_WORDS(cells)
 *   BRADAWLET_BAD_HEADER     as with bradawlet_sheet
 *   BRADAWLET_FULL           the sheet has more cells than the table is to hold
 *   BRADAWLET_BAD_RECORD     as with bradawlet_sheet
 *
 * Words past BRADAWLET_WORDS(cells) are not touched, and a refusal touches none.
 */
int32_t bradawlet_read(int32_t *BRADAWLET_RESTRICT table, size_t words, int32_t cells,
                       const uint8_t *BRADAWLET_RESTRICT bytes, size_t length);

/*
 * Writes the tracks of a table's live cells, those whose expiry is after the
 * clock, as well-known text (OGC 06-103r4), which map programs read: a line for
 * each cell, by rising identifier, as the leafing gives them.
 *
 *   LINESTRING M (x y m, x y m)   where the cell is at the clock, and where its
 *                                 track is at its expiry
 *
 * x and y are in whole metres, 10 for each unit, and m is the minute. A number has
 * no leading zeros and no plus sign. Each line, the last one too, ends in a line
 * feed, and no zero byte follows. No line says which cell it is of: the leafing
 * has the cells in the same order, as long as no report or drop comes between.
 *
 *   table    the table, which is not changed; it may hold any words
 *   words    how many words are lent
 *   bytes    where the text goes
 *   length   how many bytes there is room for
 *   total    gives how many bytes the text has
 *
 * The answer is BRADAWLET_DONE, and then the first bytes, as many as the total,
 * are the text; the others are not touched. Where no cell is live the text has
 * none. Or it is a refusal, for the first of these reasons that holds:
 *
 *   BRADAWLET_NOT_SOUND     the words are not a sound table
 *   BRADAWLET_SHORT_BYTES   the whole text is longer than the bytes
 *
 * Then no byte is touched and the total is 0. BRADAWLET_TRACKS(256) bytes are
 * enough for any table.
 */
int32_t bradawlet_tracks(const int32_t *BRADAWLET_RESTRICT table, size_t words,
                         uint8_t *BRADAWLET_RESTRICT bytes, size_t length,
                         int32_t *BRADAWLET_RESTRICT total);

/*
 * Reads a line that bradawlet_tracks could have written: gives the cell with this
 * track and this identifier. No table is needed, and none is changed.
 *
 *   id       the cell's identifier                 1 to 2147483647
 *   line     one line, with its line feed and with nothing after it; it may be any
 *            bytes
 *   length   how many bytes there are
 *   numbers  gives the BRADAWLET_RECORD numbers of the cell, not in the order of a
 *            report's
 *
 * The line must be LINESTRING M (x1 y1 m1, x2 y2 m2), spelt to the byte as
 * bradawlet_tracks spells it, with numbers in these ranges:
 *
 *   m1, m2   minutes, the first before the second  0 to 1440 each
 *   x1, y1, x2, y2
 *            metres                                multiples of 10
 *   the velocity that takes the cell from one point to the other, in units a
 *            minute, on x and on y                 whole, -512 to 512 each
 *   the position at minute 0 that follows, in
 *            units, x and y                        -837280 to 837280 each
 *
 * The points themselves may lie anywhere, also farther out than a report may.
 *
 * The answer is BRADAWLET_DONE, and the numbers are those of the cell, with m2 as
 * its expiry; m1 is not among them. Or it is a refusal, and the numbers are 0:
 *
 *   BRADAWLET_NO_TRACK      the line is not as above, or the identifier is outside
 *                           its range
 *
 * A POINT line is refused so as well, as it has no velocity: only version 0.2.0
 * wrote one, for a cell that counts as expired now. So is text that other programs
 * write with other spaces or other spellings of a number.
 *
 * To put the cell into a table, report it as it is at a minute t that is not before
 * m1, not before the table's clock and before the expiry: at x + vx * t and
 * y + vy * t. The cell is the same for every such t, but t becomes the clock. Where
 * it is refused as out of range a sheet takes it (docs/MANUAL.md, section 8).
 */
int32_t bradawlet_read_track(int32_t id, const uint8_t *BRADAWLET_RESTRICT line, size_t length,
                             int32_t *BRADAWLET_RESTRICT numbers);

/*
 * Says whether a reported cell meets a moving query: a rectangle that goes
 * straight from the first, at start, to the second, at end.
 *
 * The report and its units and ranges are those of bradawlet_meets.
 *
 * The query:
 *   start    the first minute asked about          0 to 1440
 *   end      the last minute asked about           0 to 1440
 *   xlow, xhigh, ylow, yhigh
 *            the edges at start                    -100000 to 100000 each
 *   xlow2, xhigh2, ylow2, yhigh2
 *            the edges at end                      -100000 to 100000 each
 *
 * The answers are those of bradawlet_meets, with the query in place of the
 * window, and BRADAWLET_BACKWARD is given also when start equals end and when
 * a low edge of the second rectangle is above its high edge. Between start and
 * end the edges stand at fractions of a unit, and those count as well.
 */
int32_t bradawlet_meets_moving(int32_t id, int32_t x, int32_t y, int32_t vx, int32_t vy,
                               int32_t minute, int32_t expiry, int32_t start, int32_t end,
                               int32_t xlow, int32_t xhigh, int32_t ylow, int32_t yhigh,
                               int32_t xlow2, int32_t xhigh2, int32_t ylow2, int32_t yhigh2);

#ifdef __cplusplus
}
#endif

#endif
