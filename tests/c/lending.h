/*
 * Calls of the library with every slice between two pages that must not be touched, and what was
 * met on the way.
 */
#ifndef LENDING_H
#define LENDING_H

#include "conl.h"

enum function {
    VERSION, FRESH_TOKENIZER, TOKENIZE, FRESH_PARSER, PARSE, UNESCAPE, UNESCAPE_VALUE,
    UNESCAPE_LINES, LOOK_UP, IS_UTF8, TRIM_BLANKS, TRIM_BREAKS, FUNCTIONS
};

enum { MOST_SLICES = 4 };

/* A slice to lend. A const one has no `after`; what any other holds after the call is put there. */
struct lent {
    const void *from;
    size_t bytes;
    void *after;
};

/* What every message names, so that a case can be tried again by its seed and its number. */
extern struct trial {
    uint64_t seed, number;
    enum function function;
    size_t calls[FUNCTIONS];
} trial;

/* Makes the room for slices, of so many bytes for the first and a page for each other one. */
void make_rooms(size_t first);

/* Begins a case, of which the messages name the number. */
void begin_case(uint64_t number);

/*
 * Calls the function twice: with each slice right behind a page that must not be touched, then
 * right before one. Fails where the two calls differ in result or in what they leave, where a byte
 * of a const slice or beside a slice is written, or where a call does not return.
 */
size_t call(enum function function, const struct lent *lent, size_t slices);

/* Ends with a message where the fact does not hold. */
void expect(bool holds, const char *fact);

#endif
