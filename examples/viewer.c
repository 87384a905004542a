/*
 * The viewer's small library: one cell and one window as plain numbers, and a sheet as bytes. It has no table. A
 * refusal is neither yes nor no.
 */
#include "bradawlet_viewer.h"

#include <stdio.h>
#include <stdlib.h>

static void tell(const char *what, int32_t answer)
{
    if (answer == BRADAWLET_YES)
        printf("%s: yes\n", what);
    else if (answer == BRADAWLET_NO)
        printf("%s: no\n", what);
    else
        printf("%s: refused by %d\n", what, (int)answer);
}

int main(void)
{
    /* Cell 1 at (0, 0), velocity (3, 3), reported at minute 0, expires at 40; the point (1, 1). */
    tell("minutes 0 to 1, after a third of a minute", bradawlet_meets(1, 0, 0, 3, 3, 0, 40, 0, 1, 1, 1, 1, 1));
    tell("minutes 1 to 2", bradawlet_meets(1, 0, 0, 3, 3, 0, 40, 1, 2, 1, 1, 1, 1));
    tell("minutes 2 to 1", bradawlet_meets(1, 0, 0, 3, 3, 0, 40, 2, 1, 1, 1, 1, 1));

    /* A sheet of no cells at clock 0: count, offset, clock, total. */
    const uint8_t sheet[16] = {0, 0, 0, 0, 16, 0, 0, 0, 0, 0, 0, 0, 16, 0, 0, 0};
    tell("a sheet", bradawlet_sheet(sheet, sizeof sheet));
    tell("a sheet without its last byte", bradawlet_sheet(sheet, sizeof sheet - 1));
    return EXIT_SUCCESS;
}
