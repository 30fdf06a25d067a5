/* Exact cover problems: the first fault of a text, how many solutions its problem has, and their listing.
   What the numbers and the listing mean is proved; docs/CALLING.md and docs/PROOFS.md of Helgrothy say what and how.

   `text` and `buffer` point to `length` and `room` bytes, and no pointer is NULL, also where there are no bytes. No two
   of the things pointed to overlap, and nothing else writes to them during a call. Nothing is kept of them. A call
   takes memory by malloc and has given it back when it returns. Calls may be made by several threads at once, and not
   in a signal handler.

   `seed` is the number by which a call hashes names and colours; the answer is the same by each. Where others may have
   written the text it should be random, as of getrandom(&seed, sizeof seed, 0): by a seed that they know they could
   choose names that are slow to look up. Else 0 will do. */
#ifndef HELGROTHY_H
#define HELGROTHY_H

#include <stddef.h>
#include <stdint.h>

#ifdef __cplusplus
extern "C" {
#endif

/* What helgrothy_version() answers: 10000 * the first number + 100 * the second + the third. */
#define HELGROTHY_VERSION 100

/* Kinds of text: as `dlx1` reads it, as `dlx2`, as `dlx3`. */
enum { HELGROTHY_PLAIN = 1, HELGROTHY_COLOURS = 2, HELGROTHY_BOUNDS = 3 };

/* What a call returns; up to 4 as the programs do. At HELGROTHY_NO_KIND, _FAULT and _NO_MEMORY nothing was searched. */
enum {
    HELGROTHY_DONE = 0,      /* all solutions were counted or listed; the text has no fault */
    HELGROTHY_NO_KIND = 1,   /* `kind` is not 1, 2 or 3 */
    HELGROTHY_FAULT = 2,     /* the text has a fault */
    HELGROTHY_NO_ROOM = 3,   /* the listing or the number is longer than the buffer, which holds its beginning */
    HELGROTHY_NO_MEMORY = 4, /* malloc gave no memory */
    HELGROTHY_LIMIT = 5      /* there are as many solutions as the limit, and perhaps more */
};

uint32_t helgrothy_version(void);

/* The first fault of a text: the number of its line, from 1, and its own, as in the table of docs/INPUT.md. Both are 0
   where the answer isn't HELGROTHY_FAULT; HELGROTHY_DONE says that there is none. */
uint32_t helgrothy_fault(uint32_t kind, const void *text, size_t length, uint64_t seed, uint64_t *line,
                         uint32_t *fault);

/* A fault in words by its number, as the programs print it after the number of the line. It is never NULL. */
static inline const char *helgrothy_fault_text(uint32_t fault) {
    static const char *const texts[] = {
        "no fault",
        "no items",
        "NUL byte",
        "empty name",
        "name too long",
        "bad byte in name",
        "name repeated",
        "second bar",
        "bad bound",
        "bound order",
        "bound on a secondary item",
        "unknown item",
        "item repeated in option",
        "colour on a primary item",
        "bad colour",
        "colour not allowed here",
        "too many items",
        "too many uses",
    };
    return fault < sizeof texts / sizeof *texts ? texts[fault] : "unknown fault";
}

/* How many solutions there are, up to the limit; 0 where nothing was searched. */
uint32_t helgrothy_count(uint32_t kind, const void *text, size_t length, uint64_t seed, uint64_t limit,
                         uint64_t *count);

/* How many solutions there are, whatever their number, in decimal and without a NUL at its end: by a count of states
   that take at most about so many bytes, beside a search of all solutions, as `dlx-count` does. Its first digits stand
   in the buffer, as many as `used` says; the rest of the buffer is as it was. */
uint32_t helgrothy_total(uint32_t kind, const void *text, size_t length, uint64_t seed, size_t bytes, void *buffer,
                         size_t room, size_t *used);

/* The listing, as the programs print it: each solution whose number `spacing` divides, none for 0, up to the limit. Its
   first bytes stand in the buffer, as many as `used` says; the rest of the buffer is as it was. It takes as much memory
   again as the buffer has room. */
uint32_t helgrothy_list(uint32_t kind, const void *text, size_t length, uint64_t seed, uint64_t spacing,
                        uint64_t limit, void *buffer, size_t room, size_t *used);

#ifdef __cplusplus
}
#endif

#endif
