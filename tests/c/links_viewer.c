/*
 * Refers to every call of bradawlet_viewer.h and makes each once. It is compiled as C
 * and as C++, and linked with the smaller library, with the larger, and with both.
 */
#include "tally.h"

#include "bradawlet_viewer.h"

int main(void)
{
    static const uint8_t sheet[16] = {0, 0, 0, 0, 16, 0, 0, 0, 0, 0, 0, 0, 16, 0, 0, 0};
    check("meets", bradawlet_meets(1, 0, 0, 3, 3, 0, 40, 0, 1, 1, 1, 1, 1) == BRADAWLET_YES);
    check("meets", bradawlet_meets(1, 0, 0, 1, 2, 0, 40, 0, 5, 2, 3, 2, 3) == BRADAWLET_NO);
    check("meets", bradawlet_meets(1, 0, 0, 3, 3, 0, 40, 1, 0, 1, 1, 1, 1) == BRADAWLET_BACKWARD);
    check("sheet", bradawlet_sheet(sheet, sizeof sheet) == BRADAWLET_YES);
    return verdict();
}
