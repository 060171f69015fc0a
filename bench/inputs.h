/* The inputs of the benchmark: lists of 64-bit words, the same on every run. */
#ifndef BENCH_INPUTS_H
#define BENCH_INPUTS_H

#include <stddef.h>
#include <stdint.h>

#define MOST_WORDS 65536u

typedef struct {
    const char *name;
    const char *what;                              /* for the table */
    void (*fill)(uint64_t *words, size_t count);
} input;

#define INPUTS 5
extern const input inputs[INPUTS];

/* The length of a row, for the codecs that want the shape of a grid. The coil map has rows of real and
 * imaginary parts in turn, twice as many points a row as rows. */
size_t row_words(size_t count);

/* A random word, the same sequence from the same seed. */
uint64_t random_word(uint64_t *seed);

#endif
