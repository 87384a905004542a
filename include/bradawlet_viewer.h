/*
 * Bradawlet, the viewer's part: does the straight track of a storm cell meet a
 * window, and are bytes a well-formed sheet of cells?
 *
 * Link with libbradawlet_viewer.a, or with libbradawlet.a, which has these two
 * calls as well, or with both, in either order (but whole archives, as the linker's
 * --whole-archive takes them, of the larger alone). bradawlet.h, the header of all
 * the calls, includes this one. docs/MANUAL.md has the rules.
 *
 * The library needs no other, not even C's. It keeps no state, allocates
 * nothing, takes any numbers and any bytes at all, and takes at most
 * BRADAWLET_VIEWER_STACK bytes of stack. What it cannot answer it refuses by
 * number.
 */
#ifndef BRADAWLET_VIEWER_H
#define BRADAWLET_VIEWER_H

#include "bradawlet_refusals.h"

#include <stddef.h>
#include <stdint.h>

#ifdef __cplusplus
extern "C" {
#endif

/* The stack that a call takes at the most, in bytes: at most three
   times what was measured. */
#define BRADAWLET_VIEWER_STACK 256

/* What a test answers when it does not refuse. Any other number is one of enum
   bradawlet_refusal: compare with BRADAWLET_YES and BRADAWLET_NO, and do not
   take the result for a truth value. */
enum bradawlet_answer {
    BRADAWLET_NO = 0,
    BRADAWLET_YES = 1
};

/*
 * Says whether a reported cell meets a window.
 *
 * Positions and edges are in units of 10 m, velocities in units per minute,
 * and minutes are whole minutes of the day.
 *
 * The report of the cell:
 *   id       its identifier                        1 to 2147483647
 *   x, y     where it was at the report's minute   -100000 to 100000 each
 *   vx, vy   how it moves from there               -512 to 512 each
 *   minute   when it was reported                  0 to 1440
 *   expiry   the minute from which on its track
 *            says nothing                          0 to 1440
 *
 * The window:
 *   start    the first minute asked about          0 to 1440
 *   end      the last minute asked about           0 to 1440
 *            (equal to start: that instant alone)
 *   xlow, xhigh, ylow, yhigh
 *            the edges of the rectangle            -100000 to 100000 each
 *
 * The answer is BRADAWLET_YES exactly when at one instant, from start to end
 * and before expiry, x and y both lie within the rectangle. Instants between
 * whole minutes count, and so do the edges, the start and the end, but the expiry
 * does not. It is BRADAWLET_NO exactly when there is no such instant. Or it is a
 * refusal, for the first of these reasons that holds:
 *
 *   BRADAWLET_OUT_OF_RANGE    an argument is outside its range
 *   BRADAWLET_BEFORE_CLOCK    start is before minute
 *   BRADAWLET_EXPIRES_FIRST   expiry is not after minute
 *   BRADAWLET_BACKWARD        end is before start, or a low edge is above its
 *                             high edge
 */
int32_t bradawlet_meets(int32_t id, int32_t x, int32_t y, int32_t vx, int32_t vy,
                        int32_t minute, int32_t expiry, int32_t start, int32_t end,
                        int32_t xlow, int32_t xhigh, int32_t ylow, int32_t yhigh);

/*
 * Says whether bytes are a well-formed sheet.
 *
 *   bytes    the sheet; it may be null where length is 0
 *   length   how many bytes there are
 *
 * A sheet is made of little-endian words of 32 bits, two's complement. Its
 * header has four:
 *   count    how many cells there are              0 to 256
 *   offset   where the cells start                 16
 *   clock    the minute of the sheet               0 to 1440
 *   total    how long the sheet is                 16 + 24 * count
 * A record of six follows for each cell, by rising identifier:
 *   id       its identifier                        1 to 2147483647
 *   x, vx    where it was at minute 0, and how
 *            it moves                              -837280 to 837280, -512 to 512
 *   y, vy    the same for y
 *   expiry   the minute from which on its track
 *            says nothing                          clock + 1 to 1440
 *
 * The answer is BRADAWLET_YES, and never BRADAWLET_NO. Or it is a refusal, for
 * the first of these reasons that holds:
 *
 *   BRADAWLET_BAD_HEADER      there are fewer than 16 bytes, a number of the
 *                             header is not as above, or total is not length
 *   BRADAWLET_BAD_RECORD      a number of a record is not as above, or an
 *                             identifier is not greater than the one before
 */
int32_t bradawlet_sheet(const uint8_t *bytes, size_t length);

#ifdef __cplusplus
}
#endif

#endif
