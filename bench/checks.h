/* What checking a block costs. */
#ifndef BENCH_CHECKS_H
#define BENCH_CHECKS_H

#include <stdio.h>

/* Measures coil_check and the checks of both C versions on a block of each input, and writes the table. Answers
 * 0 where one refuses. */
int write_checks(FILE *to);

#endif
