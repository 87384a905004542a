/*
 * Bradawlet: why a call is refused, by number. Both headers, bradawlet.h and
 * bradawlet_viewer.h, include this one; a program needs neither to name it nor
 * to link anything for it.
 *
 * These are the words of docs/MANUAL.md, which says exactly when each is given
 * and in which order a call looks for them. A refusal leaves table, list and bytes
 * as they were, and is neither a "no" nor an empty list.
 */
#ifndef BRADAWLET_REFUSALS_H
#define BRADAWLET_REFUSALS_H

enum bradawlet_refusal {
    /* The words are not a sound table. */
    BRADAWLET_NOT_SOUND = 1,
    /* There is no table for so many cells. */
    BRADAWLET_BAD_CAPACITY = 2,
    /* The words are too few for a table for so many cells. */
    BRADAWLET_SHORT_TABLE = 3,
    /* An argument is outside its range. */
    BRADAWLET_OUT_OF_RANGE = 4,
    /* The minute of a report or a drop, or the start of a query, is before the
       table's clock; of a meeting test, the start is before the report's minute. */
    BRADAWLET_BEFORE_CLOCK = 5,
    /* The report's expiry is not after its minute. */
    BRADAWLET_EXPIRES_FIRST = 6,
    /* The query's end is before its start, a low edge is above its high edge, or
       a moving query has its end at its start. */
    BRADAWLET_BACKWARD = 7,
    /* The cell that is to be dropped is not live at the minute. */
    BRADAWLET_NOT_LIVE = 8,
    /* As many other cells are live at the report's minute as the table is for, or
       the sheet has more cells than that. */
    BRADAWLET_FULL = 9,
    /* There are more hits than the list has places. */
    BRADAWLET_SHORT_LIST = 10,
    /* The sheet's header is wrong. */
    BRADAWLET_BAD_HEADER = 11,
    /* A record of the sheet is wrong. */
    BRADAWLET_BAD_RECORD = 12,
    /* The bytes are too few for the sheet or for the text. */
    BRADAWLET_SHORT_BYTES = 13,
    /* The line and the identifier give no cell. */
    BRADAWLET_NO_TRACK = 14
};

#endif
