/* Runs scripts of calls for a line, as crates/line_cases does, and prints the same: for each script its name, and for each call its number, the
   length and the line that it gives. The arguments are two files a script: its calls, and the journal. */
#include "talctwill.h"

#include <stdio.h>
#include <string.h>

/* More than any scratch of a script is long; what stands in it before a call. */
#define LONGEST 131072
#define BEFORE 0xA5

static uint8_t calls[LONGEST], journal[LONGEST], scratch[LONGEST];

/* The file's bytes; says so where it cannot be read or is too long. */
static int read_file(const char *name, uint8_t *bytes, size_t *length)
{
    FILE *file = fopen(name, "rb");
    int read = 0;
    if (file != NULL) {
        *length = fread(bytes, 1, LONGEST, file);
        read = feof(file) != 0;
        fclose(file);
    }
    if (!read)
        fprintf(stderr, "calls: not read: %s\n", name);
    return read;
}

/* A word of four bytes, the lowest first. */
static size_t word(const uint8_t *bytes)
{
    return bytes[0] | (size_t)bytes[1] << 8 | (size_t)bytes[2] << 16 | (size_t)bytes[3] << 24;
}

/* One call, in a scratch of so many bytes; a byte behind the line that did not keep its value is told in a line of its own. */
static void run_call(size_t journal_length, size_t room, size_t given)
{
    if (room > sizeof scratch) {
        printf("no call\n");
        return;
    }
    memset(scratch, BEFORE, sizeof scratch);
    struct talctwill_line_answer line = talctwill_next_line(journal, journal_length, given, scratch, room);
    printf("%u %zu ", (unsigned)line.number, line.length);
    fwrite(scratch, 1, line.length, stdout);
    if (line.length == 0)
        printf("\n");
    for (size_t i = line.length; i < sizeof scratch; i++)
        if (scratch[i] != BEFORE) {
            printf("changed\n");
            return;
        }
}

_Static_assert(SIZE_MAX > UINT32_MAX, "the library is for hosts of 64 bits");

/* Numbers of lines that no script has, since its words are of 32 bits: they are beyond the end, and where one is not, that is told. */
static void run_beyond(size_t journal_length)
{
    static const size_t beyond[] = {(size_t)1 << 32, ((size_t)1 << 32) + 1, SIZE_MAX};
    for (size_t i = 0; i < sizeof beyond / sizeof *beyond; i++) {
        struct talctwill_line_answer line = talctwill_next_line(journal, journal_length, beyond[i], scratch, TALCTWILL_LEAST_SCRATCH);
        if (line.number != 0 || line.length != 0)
            printf("not at the end: %zu\n", beyond[i]);
    }
}

int main(int count, char **names)
{
    if (count % 2 == 0) {
        fprintf(stderr, "calls: a script without a journal\n");
        return 1;
    }
    for (int i = 1; i < count; i += 2) {
        size_t calls_length, journal_length;
        if (!read_file(names[i], calls, &calls_length) || !read_file(names[i + 1], journal, &journal_length))
            return 1;
        printf("== %s\n", names[i]);
        for (size_t at = 0; at + 8 <= calls_length; at += 8)
            run_call(journal_length, word(calls + at), word(calls + at + 4));
        run_beyond(journal_length);
    }
    return fflush(stdout) != 0;
}
