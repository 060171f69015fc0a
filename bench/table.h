/* Writes the results: tables for people, lines for the plot. */
#ifndef BENCH_TABLE_H
#define BENCH_TABLE_H

#include "inputs.h"
#include "measure.h"

#include <stdio.h>

/* The results of one input at one word count: the six of stores, then those of codecs where they ran. */
typedef struct {
    const input *in;
    size_t count;
    size_t number;
    result results[STORES + CODECS];
} sheet;

/* The store against the two C versions of the same rules. */
void write_same_rules(FILE *to, const sheet *sheets, size_t number);

/* The store against the general codecs, a table for each input where they ran. */
void write_general(FILE *to, const sheet *sheets, size_t number);

/* All results, fields set apart by tabs. */
void write_lines(FILE *to, const sheet *sheets, size_t number);

#endif
