/* The file's calls: what they cost on a large file. */
#ifndef BENCH_FILES_H
#define BENCH_FILES_H

#include <stdio.h>

/* Measures open, find and append on a file of 16 MiB and on one of the smallest blocks, with as many entries, and
 * writes the table. Answers 0 and says which call where one refuses. */
int write_files(FILE *to);

#endif
