/* Prints the listing of the journal on standard input, line by line, from a scratch of 96 bytes: what clampday prints. */
#include "talctwill.h"

#include <stdio.h>

int main(void)
{
    /* A byte more than the longest journal, so that one that is too long is seen to be. */
    static uint8_t journal[65536 + 1];
    uint8_t scratch[TALCTWILL_LEAST_SCRATCH] = {0};
    size_t length = fread(journal, 1, sizeof journal, stdin);
    if (ferror(stdin))
        return 1;
    for (size_t given = 0;; given++) {
        struct talctwill_line_answer line = talctwill_next_line(journal, length, given, scratch, sizeof scratch);
        if (line.number != 0)
            return 1;
        if (line.length == 0)
            break;
        if (fwrite(scratch, 1, line.length, stdout) != line.length)
            return 1;
    }
    return fflush(stdout) != 0;
}
