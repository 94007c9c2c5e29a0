/* Random documents and words, the same for the same start. */
#ifndef INPUTS_H
#define INPUTS_H

#include <stddef.h>
#include <stdint.h>

enum { MOST_BYTES = 4096 };

struct document {
    uint8_t bytes[MOST_BYTES];
    size_t length;
};

/* Starts the random numbers anew. */
void start_random(uint64_t seed, uint64_t number);

/* A random number below `bound`, which is not 0. */
size_t below(size_t bound);

/* A document of lines, of pieces, of sections that open more and more, or of any bytes; often damaged. */
void make_document(struct document *document);

/* Any word: small, near `place`, near a limit, or random. */
size_t any_word(size_t place);

/* Gives a few of the words other values. */
void damage_words(size_t *words, size_t count, size_t place);

#endif
