/* Reads bytes from standard input; its status is 0 exactly when they are a well-formed sheet. */
#include "bradawlet_viewer.h"

#include <stdio.h>

/* One byte more than the longest sheet has. */
static uint8_t bytes[16 + 24 * 256 + 1];

int main(void)
{
    size_t length = fread(bytes, 1, sizeof bytes, stdin);
    int32_t answer = bradawlet_sheet(bytes, length);
    if (answer == BRADAWLET_YES)
        return 0;
    printf("%zu bytes: refused by %d\n", length, (int)answer);
    return 1;
}
