/*
 * plain.h - permutation decoding written down plainly in C, to compare the product's time and answers with.
 *
 * It shares no code with the product. It follows docs/rules step by step: symbols are added and multiplied by their rule, and
 * a target is computed, or read from the table, when it is asked for.
 */
#ifndef PLAIN_H
#define PLAIN_H

#include <stddef.h>
#include <stdint.h>

enum { MOST_PLACES = 64, MOST_INFORMATION = 16, MOST_ERRORS = 5 };

/* What a scheme file says. rows and table point into the file. */
struct scheme {
    unsigned family, base, q; /* family 0: residues, 1: two-power */
    unsigned n, k, t;
    unsigned form, count; /* form 0: table, 1: shifts, 2: multiplier over shifts */
    unsigned step, factor, powers;
    unsigned permutations;
    const uint8_t *rows, *table;
};

/* Reads a scheme file that is in order; answers 0 for any other. */
int plain_open(struct scheme *s, const uint8_t *file, size_t size);

/* The number of the refusal, 6 to 12, or 0 where the scheme goes live; `place` is the first place of refusals 10 and 12. */
unsigned plain_trial(const struct scheme *s, uint64_t *place);

/* Writes the codeword of a message. */
void plain_encode(const struct scheme *s, const uint8_t *message, uint8_t *word);

/* The distance, with the corrected block in out, or 117 where the block is lost. */
unsigned plain_correct(const struct scheme *s, const uint8_t *block, uint8_t *out);

#endif
