/*
 * The live cells as a sheet in a file, and back: how a table outlives its program. The file is cells.sheet, or the one
 * that is named; one that is there already is left alone. Its bytes are the same on every machine. A file may be damaged
 * or of any length: reading refuses what is no sheet.
 */
#include "bradawlet.h"

#include <stdio.h>
#include <stdlib.h>

enum { CELLS = 256 };

static int32_t table[BRADAWLET_WORDS(CELLS)], restored[BRADAWLET_WORDS(CELLS)];
/* One byte more than the longest sheet has, so that a file that is too long shows. */
static uint8_t bytes[BRADAWLET_SHEET(CELLS) + 1];

static const size_t words = BRADAWLET_WORDS(CELLS);

static void must(const char *what, int32_t number)
{
    if (number == BRADAWLET_DONE)
        return;
    fprintf(stderr, "%s: refused by %d\n", what, (int)number);
    exit(EXIT_FAILURE);
}

static FILE *opened_file(const char *path, const char *mode)
{
    FILE *file = fopen(path, mode);
    if (file == NULL) {
        perror(path);
        exit(EXIT_FAILURE);
    }
    return file;
}

static void save(const char *path)
{
    int32_t total;
    must("write", bradawlet_write(table, words, bytes, sizeof bytes, &total));
    FILE *file = opened_file(path, "wbx");
    size_t written = fwrite(bytes, 1, (size_t)total, file);
    if (fclose(file) != 0 || written != (size_t)total) {
        perror(path);
        exit(EXIT_FAILURE);
    }
    printf("%d bytes written\n", (int)total);
}

static int32_t restore(const char *path)
{
    FILE *file = opened_file(path, "rb");
    size_t length = fread(bytes, 1, sizeof bytes, file);
    fclose(file);
    return bradawlet_read(restored, words, CELLS, bytes, length);
}

int main(int argc, char **argv)
{
    const char *path = argc > 1 ? argv[1] : "cells.sheet";
    must("fresh", bradawlet_fresh(table, words, CELLS));
    must("report", bradawlet_report(table, words, 7, 100, 200, 5, -3, 10, 40));
    must("report", bradawlet_report(table, words, 9, 0, 0, 3, 3, 10, 30));
    save(path);
    must("read", restore(path));

    int32_t cell[BRADAWLET_RECORD];
    must("open", bradawlet_open(restored, words));
    for (int32_t last = 0; bradawlet_next(restored, words, last, cell) == BRADAWLET_ONE; last = cell[0])
        printf("cell %d is back, until minute %d\n", (int)cell[0], (int)cell[5]);

    /* A file that has lost its last byte is no sheet, and the table that was there stays as it was. */
    printf("a byte short: refused by %d\n", (int)bradawlet_read(restored, words, CELLS, bytes, BRADAWLET_SHEET(2) - 1));
    must("open", bradawlet_open(restored, words));
    return EXIT_SUCCESS;
}
