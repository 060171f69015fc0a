/* A large exam file without its maps: the blocks are whatever bytes stand there. */
#ifndef TESTS_LARGE_FILE_H
#define TESTS_LARGE_FILE_H

#include <stddef.h>
#include <stdint.h>

enum { TRAILER = 32, ENTRY = 12 };
#define EXAM UINT64_C(77)

/* Writes the directory and the trailer of a file of that length, of exam EXAM. Its entries share all the bytes
 * before the directory, and their slots are 0, 10, 20 and so on. */
void lay_out(uint8_t *file, size_t length, size_t entries);

#endif
