/* Checks contenders on one input, then times those that are exact. */
#ifndef BENCH_MEASURE_H
#define BENCH_MEASURE_H

#include "contender.h"

typedef enum { IS_MISSING, IS_NOT_EXACT, IS_EXACT } standing;

typedef struct {
    const contender *who;
    standing stands;
    size_t length;         /* of all pieces, packed, in bytes */
    double pack_ns;        /* the shortest time for all pieces */
    double unpack_ns;
} result;

/* To be called first. Answers 0, or the status to end with, having said why: 3 where a time would mean nothing,
 * 1 where the store and the two C versions of its rules differ in a single byte. */
int prepare(void);

/* Cuts MOST_WORDS words into pieces of so many, each packed by a call of its own: so short and long calls are
 * held against each other on the same words. All contenders take turns, in rounds, so that each meets the same
 * conditions. */
void measure(const contender *const *whom, size_t number, const uint64_t *words, size_t count,
             result *results);

#endif
