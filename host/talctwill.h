/* The library for a host that is not written in Rattle: crates/talctwill, which `rt lib` proves and builds into one static library,
   out/libtalctwill.a, for x86-64 Linux. What is said here of a call's answer and of its scratch is proved for every journal, every number of
   lines and every scratch (talctwill/specs/InNumbers, line_by_line/specs/Promise). */
#ifndef TALCTWILL_H
#define TALCTWILL_H

#include <stddef.h>
#include <stdint.h>

#ifdef __cplusplus
extern "C" {
#endif

/* The least scratch that is taken. No line of a listing, newline included, is longer than 95 bytes. */
#define TALCTWILL_LEAST_SCRATCH 96

/* What a call for a line answers: number 0 and the line's length, or the number of a refusal, which is never 0, and length 0. */
struct talctwill_line_answer {
    uint32_t number;
    size_t length;
};

/* The next line of a journal's listing, after `given` lines already given: the header, which is line 0, after none.

   Number 0: the line, newline included, stands at the scratch's start afterwards, and `length` is the line's, which is 0 at the end and
   beyond, whatever `given` is, and only there. The scratch's other bytes keep their values. So the lines of calls with 0, 1, 2, ... already
   given, up to the first of length 0, end to end, are the listing that clampday prints, byte for byte, from any scratch of 96 bytes or more.

   Number 21, and length 0, which is not the end: the scratch is under 96 bytes. This comes before all else, and all bytes of the scratch keep
   their values. It is the only refusal: every journal is taken, of any length and content, and where clampday refuses it, that is a line.

   The caller sees to this, which nothing checks: `journal` and `scratch` are not null, also where their length is 0; so many bytes are there as
   their lengths say, and hold something; they do not overlap; and during the call nobody else writes to `journal`, or reads or writes `scratch`.

   How it works, which no contract states: a call keeps nothing, and takes some 10 kB of stack and no heap. For the header it does nothing else;
   for any other line it reads the journal and runs it anew, up to the record that has the line, or to its end. */
struct talctwill_line_answer talctwill_next_line(const uint8_t *journal, size_t journal_length, size_t given, uint8_t *scratch,
                                                 size_t scratch_length);

#ifdef __cplusplus
}
#endif

#endif
