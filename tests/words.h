/* Seeded random numbers and the kinds of words the tests pack. */
#ifndef WORDS_H
#define WORDS_H

#include <stddef.h>
#include <stdint.h>

typedef enum {
    ZEROS,              /* all 0 */
    EQUAL,              /* one word again and again */
    RAMP,               /* one fixed difference */
    RUNS,               /* runs of equal words and of ramps, of random lengths */
    AIR_MAP,            /* doubles of a smooth map, 80 % of it exact zeros in long runs */
    NOISE,              /* random words */
    FCM_WIDTHS,         /* repeats with the low 0 to 8 bytes changed: residuals of every width */
    DFCM_WIDTHS,        /* the same for differences */
    ODD_DOUBLES,        /* NaN patterns, both zeros, infinities, subnormals */
    SINGLE_BITS,        /* words with one bit set */
    KINDS
} kind_of_words;

extern const char *const kind_names[KINDS];

void seed_random(uint64_t seed);
uint64_t random_word(void);
/* A number from 0 to below - 1. */
size_t random_below(size_t below);
void random_bytes(uint8_t *bytes, size_t count);

void make_words(kind_of_words kind, uint64_t *words, size_t count);

#endif
