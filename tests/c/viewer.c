/*
 * Asks the viewer's meeting call about tracks whose answers are known, and for
 * every refusal; asks its sheet test about sheets that are whole, cut short,
 * padded and damaged, in blocks of just their size. Prints a line for each check
 * that fails, and last the counts.
 */
#include "lent.h"
#include "tally.h"

#include "bradawlet_viewer.h"

#include <stddef.h>
#include <stdio.h>

#define LENGTH(array) (sizeof(array) / sizeof((array)[0]))

enum argument {
    ID, X, Y, VX, VY, MINUTE, EXPIRY, START, END, XLOW, XHIGH, YLOW, YHIGH, ARGUMENTS
};

struct call {
    int32_t value[ARGUMENTS];
};

struct track {
    const char *name;
    struct call call;
    int32_t answer;
};

/* The answers at the ends of the range are those of `plain` with this argument changed. */
struct range {
    const char *name;
    int32_t least, greatest;
    int32_t answer_at_least, answer_at_greatest;
};

static const struct call plain = {{5, 0, 0, 1, 1, 10, 40, 20, 30, -50, 50, -50, 50}};

static const struct range ranges[ARGUMENTS] = {
    [ID] = {"id", 1, INT32_MAX, 1, 1},
    [X] = {"x", -100000, 100000, 0, 0},
    [Y] = {"y", -100000, 100000, 0, 0},
    [VX] = {"vx", -512, 512, 0, 0},
    [VY] = {"vy", -512, 512, 0, 0},
    [MINUTE] = {"minute", 0, 1440, 1, 5},
    [EXPIRY] = {"expiry", 0, 1440, 6, 1},
    [START] = {"start", 0, 1440, 5, 7},
    [END] = {"end", 0, 1440, 7, 1},
    [XLOW] = {"xlow", -100000, 100000, 1, 7},
    [XHIGH] = {"xhigh", -100000, 100000, 7, 1},
    [YLOW] = {"ylow", -100000, 100000, 1, 7},
    [YHIGH] = {"yhigh", -100000, 100000, 7, 1},
};

/* Columns: id, x, y, vx, vy, minute, expiry; start, end; xlow, xhigh, ylow, yhigh. */
static const struct track tracks[] = {
    {"P1: at a third of a minute", {{1, 0, 0, 3, 3, 0, 40, 0, 1, 1, 1, 1, 1}}, 1},
    {"P2: x and y inside at different times", {{1, 0, 0, 1, 2, 0, 40, 0, 5, 2, 3, 2, 3}}, 0},
    {"P3: at the expiry", {{7, 100, 200, 5, -3, 10, 40, 40, 40, 250, 250, 110, 110}}, 0},
    {"P4: past the expiry", {{7, 100, 200, 5, -3, 10, 40, 41, 41, 255, 255, 107, 107}}, 0},
    {"P3, a minute sooner", {{7, 100, 200, 5, -3, 10, 40, 39, 39, 245, 245, 113, 113}}, 1},

    {"one instant, at the point", {{7, 100, 200, 5, -3, 10, 40, 20, 20, 150, 150, 170, 170}}, 1},
    {"one instant, x one off", {{7, 100, 200, 5, -3, 10, 40, 20, 20, 151, 151, 170, 170}}, 0},
    {"one instant, y one off", {{7, 100, 200, 5, -3, 10, 40, 20, 20, 150, 150, 171, 171}}, 0},
    {"first instant, minute 0", {{1, 4, -4, 9, 9, 0, 1, 0, 0, 4, 4, -4, -4}}, 1},
    {"last minute of reports, 1439", {{1, 4, -4, 9, 9, 1439, 1440, 1439, 1439, 4, 4, -4, -4}}, 1},
    {"last minute of reports, one off", {{1, 4, -4, 9, 9, 1439, 1440, 1439, 1439, 5, 5, -4, -4}}, 0},
    {"nothing at minute 1440", {{1, 4, -4, 0, 0, 1439, 1440, 1440, 1440, 4, 4, -4, -4}}, 0},

    {"reached at the end", {{1, 0, 0, 5, 0, 0, 40, 0, 10, 50, 60, 0, 0}}, 1},
    {"reached after the end", {{1, 0, 0, 5, 0, 0, 40, 0, 10, 51, 60, 0, 0}}, 0},
    {"left at the start", {{1, 0, 0, 5, 0, 0, 40, 10, 20, 40, 50, 0, 0}}, 1},
    {"left before the start", {{1, 0, 0, 5, 0, 0, 40, 10, 20, 40, 49, 0, 0}}, 0},
    {"reached at the expiry", {{1, 0, 0, 5, 0, 0, 10, 0, 20, 50, 60, 0, 0}}, 0},
    {"reached at the expiry and the end", {{1, 0, 0, 5, 0, 0, 10, 0, 10, 50, 60, 0, 0}}, 0},
    {"reached at 80/2, the expiry", {{1, 0, 0, 2, 0, 0, 40, 0, 60, 80, 90, 0, 0}}, 0},
    {"reached at 79/2, before the expiry", {{1, 0, 0, 2, 0, 0, 40, 0, 60, 79, 90, 0, 0}}, 1},
    {"reached 1/512 before the expiry", {{1, 0, 0, 512, 0, 0, 40, 0, 40, 20479, 20480, 0, 0}}, 1},
    {"reached 1/5 before the expiry", {{1, 0, 0, 5, 0, 0, 10, 0, 20, 49, 60, 0, 0}}, 1},
    {"reached after the expiry", {{1, 0, 0, 5, 0, 0, 10, 0, 20, 51, 60, 0, 0}}, 0},
    {"inside until the expiry", {{1, 0, 0, 0, 0, 0, 10, 0, 10, -9, 9, -9, 9}}, 1},
    {"expired before the start", {{1, 0, 0, 0, 0, 0, 10, 11, 20, -9, 9, -9, 9}}, 0},
    {"expires at the start", {{1, 0, 0, 0, 0, 0, 11, 11, 20, -9, 9, -9, 9}}, 0},
    {"expires after the start", {{1, 0, 0, 0, 0, 0, 12, 11, 20, -9, 9, -9, 9}}, 1},

    {"x enters as y leaves, at 7/4", {{1, 0, 0, 4, 4, 0, 40, 0, 5, 7, 9, 5, 7}}, 1},
    {"x enters after y leaves", {{1, 0, 0, 4, 4, 0, 40, 0, 5, 7, 9, 5, 6}}, 0},
    {"x leaves before y enters", {{1, 0, 0, 4, 4, 0, 40, 0, 5, 5, 6, 7, 9}}, 0},

    {"still, on an edge", {{1, 3, 3, 0, 0, 0, 40, 0, 40, 3, 9, -9, 3}}, 1},
    {"still, beside an edge", {{1, 3, 3, 0, 0, 0, 40, 0, 40, 4, 9, -9, 3}}, 0},

    {"across the plane, downwards, at 390 and 5/8",
     {{1, 100000, 100000, -512, -512, 0, 1440, 0, 1440, -100000, -100000, -100000, -100000}}, 1},
    {"across the plane, downwards, y one behind",
     {{1, 100000, 99999, -512, -512, 0, 1440, 0, 1440, -100000, -100000, -100000, -100000}}, 0},
    {"across the plane, upwards, at 390 and 5/8",
     {{1, -100000, -100000, 512, 512, 0, 1440, 0, 1440, 100000, 100000, 100000, 100000}}, 1},
    {"across the plane, upwards, x one ahead",
     {{1, -99999, -100000, 512, 512, 0, 1440, 0, 1440, 100000, 100000, 100000, 100000}}, 0},
    {"across the plane, expired at 390",
     {{1, -100000, -100000, 512, 512, 0, 390, 0, 1440, 100000, 100000, 100000, 100000}}, 0},
    {"across the plane, expired at 391",
     {{1, -100000, -100000, 512, 512, 0, 391, 0, 1440, 100000, 100000, 100000, 100000}}, 1},
    {"kept as far above 0 as a report can be",
     {{1, 100000, 100000, -512, -512, 1439, 1440, 1439, 1439, 100000, 100000, 100000, 100000}}, 1},
    {"kept as far above 0 as a report can be, one off",
     {{1, 100000, 100000, -512, -512, 1439, 1440, 1439, 1439, 99999, 99999, 100000, 100000}}, 0},
    {"kept as far below 0 as a report can be",
     {{1, -100000, -100000, 512, 512, 1439, 1440, 1439, 1439, -100000, -100000, -100000, -100000}}, 1},
    {"gone far outside the plane",
     {{1, 100000, 100000, 512, 512, 0, 1440, 1439, 1440, -100000, 100000, -100000, 100000}}, 0},
    {"greatest identifier, whole plane, whole day",
     {{INT32_MAX, 0, 0, 0, 0, 0, 1440, 0, 1440, -100000, 100000, -100000, 100000}}, 1},

    {"5: starts a minute too early", {{1, 0, 0, 0, 0, 10, 40, 9, 30, -9, 9, -9, 9}}, 5},
    {"starts at the report's minute", {{1, 0, 0, 0, 0, 10, 40, 10, 30, -9, 9, -9, 9}}, 1},
    {"6: expires before the report", {{1, 0, 0, 0, 0, 10, 9, 10, 30, -9, 9, -9, 9}}, 6},
    {"6: expires at the report's minute", {{1, 0, 0, 0, 0, 10, 10, 20, 30, -9, 9, -9, 9}}, 6},
    {"6: expires at the report's minute, and the start", {{1, 0, 0, 0, 0, 10, 10, 10, 30, -9, 9, -9, 9}}, 6},
    {"6: expires at the report's minute, 0", {{1, 0, 0, 0, 0, 0, 0, 0, 0, 0, 0, 0, 0}}, 6},
    {"6: reported at minute 1440", {{1, 4, -4, 9, 9, 1440, 1440, 1440, 1440, 4, 4, -4, -4}}, 6},
    {"6 before 7: all minutes alike, xlow above xhigh", {{1, 0, 0, 0, 0, 10, 10, 10, 10, 1, 0, 0, 0}}, 6},
    {"6 before 7: expires as it is reported, transposed", {{1, 0, 0, 0, 0, 10, 10, 30, 20, -9, 9, -9, 9}}, 6},
    {"5 before 6: expires as it is reported", {{1, 0, 0, 0, 0, 10, 10, 9, 30, -9, 9, -9, 9}}, 5},
    {"4 before 6: expires as it is reported", {{0, 0, 0, 0, 0, 10, 10, 10, 30, -9, 9, -9, 9}}, 4},
    {"expires a minute after the report", {{1, 0, 0, 0, 0, 10, 11, 10, 30, -9, 9, -9, 9}}, 1},
    {"expires a minute after the report, asked then", {{1, 0, 0, 0, 0, 10, 11, 11, 30, -9, 9, -9, 9}}, 0},
    {"7: start and end transposed", {{1, 0, 0, 0, 0, 0, 40, 40, 12, -9, 9, -9, 9}}, 7},
    {"7: ends a minute too early", {{1, 0, 0, 0, 0, 0, 40, 12, 11, -9, 9, -9, 9}}, 7},
    {"7: xlow one above xhigh", {{1, 0, 0, 0, 0, 0, 40, 12, 12, 1, 0, 0, 0}}, 7},
    {"7: ylow one above yhigh", {{1, 0, 0, 0, 0, 0, 40, 12, 12, 0, 0, 1, 0}}, 7},
};

enum header_word { COUNT, OFFSET, CLOCK, TOTAL, HEADER_WORDS };

enum record_word { R_ID, R_X, R_VX, R_Y, R_VY, R_EXPIRY, RECORD_WORDS };

enum { MOST_CELLS = 256, WORD_BYTES = 4, SHEET_CLOCK = 100, FIRST_EXPIRY = SHEET_CLOCK + 1 };

/* Room for one cell more than a sheet may have. */
struct sheet {
    int32_t word[HEADER_WORDS + RECORD_WORDS * (MOST_CELLS + 1)];
};

/* A word of a sheet of three cells that is changed; record -1 is the header. */
struct change {
    const char *name;
    int record, field;
    int32_t value;
    int32_t answer;
};

static const struct change changes[] = {
    {"count -1", -1, COUNT, -1, 11},
    {"count one too small", -1, COUNT, 2, 11},
    {"count one too great", -1, COUNT, 4, 11},
    {"count 257", -1, COUNT, 257, 11},
    {"count at INT32_MIN", -1, COUNT, INT32_MIN, 11},
    {"count at INT32_MAX", -1, COUNT, INT32_MAX, 11},
    {"offset 0", -1, OFFSET, 0, 11},
    {"offset 15", -1, OFFSET, 15, 11},
    {"offset 17", -1, OFFSET, 17, 11},
    {"offset -16", -1, OFFSET, -16, 11},
    {"offset of the second record", -1, OFFSET, 40, 11},
    {"clock -1", -1, CLOCK, -1, 11},
    {"clock 0", -1, CLOCK, 0, 1},
    {"clock a minute before the first expiry", -1, CLOCK, FIRST_EXPIRY - 1, 1},
    {"clock at the first expiry", -1, CLOCK, FIRST_EXPIRY, 12},
    {"clock past the first expiry", -1, CLOCK, FIRST_EXPIRY + 1, 12},
    {"clock 1439", -1, CLOCK, 1439, 12},
    {"clock 1440", -1, CLOCK, 1440, 12},
    {"clock 1441", -1, CLOCK, 1441, 11},
    {"clock at INT32_MIN", -1, CLOCK, INT32_MIN, 11},
    {"total 0", -1, TOTAL, 0, 11},
    {"total -88", -1, TOTAL, -88, 11},
    {"total one too small", -1, TOTAL, 87, 11},
    {"total one too great", -1, TOTAL, 89, 11},
    {"total a record too small", -1, TOTAL, 64, 11},
    {"total a record too great", -1, TOTAL, 112, 11},

    {"first identifier 1", 0, R_ID, 1, 1},
    {"first identifier 0", 0, R_ID, 0, 12},
    {"first identifier -1", 0, R_ID, -1, 12},
    {"first identifier INT32_MIN", 0, R_ID, INT32_MIN, 12},
    {"first identifier just below the second", 0, R_ID, 19, 1},
    {"first identifier that of the second", 0, R_ID, 20, 12},
    {"second identifier that of the third", 1, R_ID, 30, 12},
    {"third identifier that of the second", 2, R_ID, 20, 12},
    {"third identifier below the second", 2, R_ID, 19, 12},
    {"third identifier just above the second", 2, R_ID, 21, 1},
    {"third identifier the greatest", 2, R_ID, INT32_MAX, 1},
    {"x at its least", 0, R_X, -837280, 1},
    {"x one below its least", 0, R_X, -837281, 12},
    {"x at its greatest", 1, R_X, 837280, 1},
    {"x one above its greatest", 1, R_X, 837281, 12},
    {"vx at its least", 1, R_VX, -512, 1},
    {"vx one below its least", 1, R_VX, -513, 12},
    {"vx at its greatest", 2, R_VX, 512, 1},
    {"vx one above its greatest", 2, R_VX, 513, 12},
    {"y at its least", 2, R_Y, -837280, 1},
    {"y one below its least", 2, R_Y, -837281, 12},
    {"y at its greatest", 0, R_Y, 837280, 1},
    {"y one above its greatest", 0, R_Y, 837281, 12},
    {"vy at its least", 0, R_VY, -512, 1},
    {"vy one below its least", 0, R_VY, -513, 12},
    {"vy at its greatest", 1, R_VY, 512, 1},
    {"vy one above its greatest", 1, R_VY, 513, 12},
    {"first expiry at the clock", 0, R_EXPIRY, SHEET_CLOCK, 12},
    {"last expiry at the clock", 2, R_EXPIRY, SHEET_CLOCK, 12},
    {"last expiry a minute after the clock", 2, R_EXPIRY, SHEET_CLOCK + 1, 1},
    {"expiry before the clock", 2, R_EXPIRY, SHEET_CLOCK - 1, 12},
    {"expiry 0", 1, R_EXPIRY, 0, 12},
    {"expiry 1440", 1, R_EXPIRY, 1440, 1},
    {"expiry 1441", 1, R_EXPIRY, 1441, 12},
    {"expiry at INT32_MIN", 0, R_EXPIRY, INT32_MIN, 12},
};

static int32_t ask(const struct call *call)
{
    const int32_t *v = call->value;
    return bradawlet_meets(v[ID], v[X], v[Y], v[VX], v[VY], v[MINUTE], v[EXPIRY], v[START], v[END],
                           v[XLOW], v[XHIGH], v[YLOW], v[YHIGH]);
}

static void check_call(const char *name, const char *detail, const struct call *call, int32_t expected)
{
    int32_t answer = ask(call);
    if (answer == expected) {
        passed++;
        return;
    }
    failed++;
    printf("FAILED %s%s: expected %d, was %d, for", name, detail, (int)expected, (int)answer);
    for (size_t i = 0; i < ARGUMENTS; i++)
        printf(" %d", (int)call->value[i]);
    printf("\n");
}

static struct call changed(struct call call, enum argument argument, int32_t value)
{
    call.value[argument] = value;
    return call;
}

/* Changes what no other reason looks at, so that reasons can be given together. An expiry that gives one is so many
   minutes before the report's: 0 is enough. */
static void give_reason(struct call *call, int32_t refusal, int32_t sooner)
{
    int32_t *v = call->value;
    switch (refusal) {
    case BRADAWLET_OUT_OF_RANGE:
        v[YHIGH] = ranges[YHIGH].greatest + 1;
        break;
    case BRADAWLET_BEFORE_CLOCK:
        v[START] = v[MINUTE] - 1;
        break;
    case BRADAWLET_EXPIRES_FIRST:
        v[EXPIRY] = v[MINUTE] - sooner;
        break;
    case BRADAWLET_BACKWARD:
        v[XLOW] = v[XHIGH] + 1;
        break;
    }
}

static void check_outside(enum argument argument, const char *detail, int32_t value)
{
    struct call alone = changed(plain, argument, value);
    struct call among_others = plain;
    for (int32_t refusal = 5; refusal <= 7; refusal++)
        give_reason(&among_others, refusal, 0);
    among_others.value[argument] = value;
    check_call(ranges[argument].name, detail, &alone, BRADAWLET_OUT_OF_RANGE);
    check_call(ranges[argument].name, detail, &among_others, BRADAWLET_OUT_OF_RANGE);
}

static void check_range(enum argument argument)
{
    const struct range *range = &ranges[argument];
    struct call at_least = changed(plain, argument, range->least);
    struct call at_greatest = changed(plain, argument, range->greatest);
    check_call(range->name, " at its least", &at_least, range->answer_at_least);
    check_call(range->name, " at its greatest", &at_greatest, range->answer_at_greatest);
    check_outside(argument, " one below its least", range->least - 1);
    check_outside(argument, " at INT32_MIN", INT32_MIN);
    if (range->greatest == INT32_MAX)
        return;
    check_outside(argument, " one above its greatest", range->greatest + 1);
    check_outside(argument, " at INT32_MAX", INT32_MAX);
}

static void check_all_arguments_at(const char *detail, int32_t value)
{
    struct call call;
    for (size_t i = 0; i < ARGUMENTS; i++)
        call.value[i] = value;
    check_call("every argument", detail, &call, BRADAWLET_OUT_OF_RANGE);
}

/* Every set of the four reasons: the answer is the least of the set, and a yes for none. */
static void check_order(int32_t sooner)
{
    for (unsigned set = 0; set < 16; set++) {
        struct call call = plain;
        char detail[] = " ----";
        int32_t expected = BRADAWLET_YES;
        for (int32_t refusal = 7; refusal >= 4; refusal--) {
            if ((set >> (refusal - 4) & 1) == 0)
                continue;
            give_reason(&call, refusal, sooner);
            detail[refusal - 3] = (char)('0' + refusal);
            expected = refusal;
        }
        check_call("the first of", detail, &call, expected);
    }
}

static size_t total_of(int32_t cells)
{
    return 16 + 24 * (size_t)cells;
}

/* Cells 10, 20, .. whose numbers have both signs; each expires after the clock, the first in the next minute. */
static void make_sheet(struct sheet *sheet, int32_t cells)
{
    *sheet = (struct sheet){{cells, 16, SHEET_CLOCK, (int32_t)total_of(cells)}};
    for (int32_t k = 0; k < cells; k++) {
        int32_t sign = k % 2 == 0 ? 1 : -1;
        int32_t *record = sheet->word + HEADER_WORDS + RECORD_WORDS * k;
        record[R_ID] = 10 * (k + 1);
        record[R_X] = sign * 3271 * k;
        record[R_VX] = -sign * k;
        record[R_Y] = -sign * 65536;
        record[R_VY] = sign * 512;
        record[R_EXPIRY] = FIRST_EXPIRY + k;
    }
}

/* The first bytes of a sheet, as many as length, in a block of just that size. */
static uint8_t *bytes_of(const struct sheet *sheet, size_t length)
{
    uint8_t *bytes = lend(length);
    for (size_t i = 0; i < length; i++)
        bytes[i] = (uint8_t)((uint32_t)sheet->word[i / WORD_BYTES] >> (8 * (i % WORD_BYTES)));
    return bytes;
}

static void check_bytes(const char *name, const char *detail, const uint8_t *bytes, size_t length,
                        int32_t expected)
{
    int32_t answer = bradawlet_sheet(bytes, length);
    if (answer == expected) {
        passed++;
        return;
    }
    failed++;
    printf("FAILED %s%s: expected %d, was %d, for %zu bytes\n", name, detail, (int)expected,
           (int)answer, length);
}

static void check_sheet(const char *name, const char *detail, const struct sheet *sheet,
                        size_t length, int32_t expected)
{
    uint8_t *bytes = bytes_of(sheet, length);
    check_bytes(name, detail, bytes, length, expected);
    give_back(bytes);
}

/* Every length from nothing to past the total: only the total itself will do. */
static void check_lengths(int32_t cells)
{
    struct sheet sheet;
    make_sheet(&sheet, cells);
    for (size_t length = 0; length <= total_of(cells) + 30; length++)
        check_sheet("a sheet", " cut short or padded", &sheet, length,
                    length == total_of(cells) ? BRADAWLET_YES : BRADAWLET_BAD_HEADER);
}

static void check_change(const struct change *change)
{
    struct sheet sheet;
    make_sheet(&sheet, 3);
    int32_t *word = sheet.word;
    if (change->record >= 0)
        word += HEADER_WORDS + RECORD_WORDS * change->record;
    word[change->field] = change->value;
    check_sheet(change->name, "", &sheet, total_of(3), change->answer);
    if (change->answer != BRADAWLET_BAD_RECORD)
        return;
    sheet.word[OFFSET]++;
    check_sheet(change->name, " and a wrong header", &sheet, total_of(3), BRADAWLET_BAD_HEADER);
}

/* At minute 1440 nothing lives, so no cell can stand on a sheet with that clock; a minute before it one can. */
static void check_last_minute(void)
{
    for (int32_t cells = 0; cells <= 3; cells++) {
        for (int32_t clock = 1438; clock <= 1440; clock++) {
            struct sheet sheet;
            make_sheet(&sheet, cells);
            sheet.word[CLOCK] = clock;
            for (int32_t k = 0; k < cells; k++)
                sheet.word[HEADER_WORDS + RECORD_WORDS * k + R_EXPIRY] = 1440;
            check_sheet("a sheet", " at the end of the day", &sheet, total_of(cells),
                        clock == 1440 && cells > 0 ? BRADAWLET_BAD_RECORD : BRADAWLET_YES);
        }
    }
}

static void check_count(int32_t cells, int32_t expected)
{
    struct sheet sheet;
    make_sheet(&sheet, cells);
    check_sheet("a sheet", " of so many cells", &sheet, total_of(cells), expected);
}

/* What stands in a sheet, read in another way than the library does: byte by byte from the top. */
static int64_t word_at(const uint8_t *bytes, size_t at)
{
    int64_t word = bytes[at + 3] < 128 ? bytes[at + 3] : bytes[at + 3] - 256;
    for (size_t i = 3; i > 0; i--)
        word = word * 256 + bytes[at + i - 1];
    return word;
}

static bool between(int64_t least, int64_t value, int64_t greatest)
{
    return least <= value && value <= greatest;
}

static int32_t plain_answer(const uint8_t *bytes, size_t length)
{
    if (length < 16)
        return BRADAWLET_BAD_HEADER;
    int64_t count = word_at(bytes, 0), clock = word_at(bytes, 8);
    if (!between(0, count, MOST_CELLS) || word_at(bytes, 4) != 16 || !between(0, clock, 1440)
        || word_at(bytes, 12) != 16 + 24 * count || word_at(bytes, 12) != (int64_t)length)
        return BRADAWLET_BAD_HEADER;
    int64_t least = 1;
    for (size_t at = 16; at < length; at += 24) {
        if (!between(least, word_at(bytes, at), INT32_MAX)
            || !between(-837280, word_at(bytes, at + 4), 837280)
            || !between(-512, word_at(bytes, at + 8), 512)
            || !between(-837280, word_at(bytes, at + 12), 837280)
            || !between(-512, word_at(bytes, at + 16), 512)
            || !between(clock + 1, word_at(bytes, at + 20), 1440))
            return BRADAWLET_BAD_RECORD;
        least = word_at(bytes, at) + 1;
    }
    return BRADAWLET_YES;
}

/* One byte takes every value; the block is left with the last of them. */
static void check_byte(uint8_t *bytes, size_t length, size_t place)
{
    int32_t answer = 0, expected = 0;
    for (int value = 0; value < 256 && answer == expected; value++) {
        bytes[place] = (uint8_t)value;
        answer = bradawlet_sheet(bytes, length);
        expected = plain_answer(bytes, length);
    }
    check_bytes("a sheet", " with one byte changed", bytes, length, expected);
}

static void check_single_bytes(int32_t cells)
{
    struct sheet sheet;
    make_sheet(&sheet, cells);
    size_t length = total_of(cells);
    for (size_t place = 0; place < length; place++) {
        uint8_t *bytes = bytes_of(&sheet, length);
        check_byte(bytes, length, place);
        give_back(bytes);
    }
}

static void check_sheets(void)
{
    for (int32_t cells = 0; cells <= 3; cells++) {
        check_lengths(cells);
        check_single_bytes(cells);
    }
    for (int32_t cells = 0; cells <= MOST_CELLS; cells++)
        check_count(cells, BRADAWLET_YES);
    check_count(MOST_CELLS + 1, BRADAWLET_BAD_HEADER);
    check_last_minute();
    for (size_t i = 0; i < LENGTH(changes); i++)
        check_change(&changes[i]);
}

int main(void)
{
    /* A failure is printed even if the library ends the program after it. */
    setvbuf(stdout, NULL, _IOLBF, BUFSIZ);
    for (size_t i = 0; i < LENGTH(tracks); i++)
        check_call(tracks[i].name, "", &tracks[i].call, tracks[i].answer);
    for (size_t i = 0; i < ARGUMENTS; i++)
        check_range((enum argument)i);
    check_all_arguments_at(" at INT32_MIN", INT32_MIN);
    check_all_arguments_at(" at INT32_MAX", INT32_MAX);
    check_order(0);
    check_order(1);
    check_bytes("no bytes", " at null", NULL, 0, BRADAWLET_BAD_HEADER);
    for (lent_side = 0; lent_side < LENT_SIDES; lent_side++)
        check_sheets();
    return verdict();
}
