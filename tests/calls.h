/* Each call of coil.h, made on both sides with equal memory, and everything compared afterwards:
 * the answer, each lent number, each lent byte and word, the guards, and what must stay as it was.
 */
#ifndef CALLS_H
#define CALLS_H

#include "coil.h"

#include <stdbool.h>
#include <stddef.h>
#include <stdint.h>

typedef struct {
    uint32_t answer;            /* all as the reference gave them */
    size_t first;               /* length, count, offset or new length */
    size_t second;              /* find: the block's length; append_all, salvage: how many went in or were kept */
    size_t left_over;           /* salvage: how many old bytes are in no block that was kept */
    uint32_t renumbered;        /* salvage: 1 where it was done */
    const uint8_t *bytes;       /* pack: the block; append, append_all, replace, salvage: the file. Until the next
                                 * call, as all that follows. */
    const uint64_t *words;      /* unpack, fetch: the words */
    const uint8_t *bench;       /* append, append_all, replace: the bench */
    const uint64_t *fcm;        /* the tables, where the call was lent some */
    const uint64_t *dfcm;
} outcome;

/* Sizes of the two tables, in words. */
typedef struct {
    size_t fcm;
    size_t dfcm;
} table_sizes;

/* A file as it is lent: the bytes known, then random bytes up to the buffer's size. */
typedef struct {
    const uint8_t *bytes;
    size_t known;
    size_t buffer;
    size_t length;
    uint64_t exam;
} lent_file;

void prepare_calls(uint64_t seed, bool stop_at_first);

/* The case now tried, printed with a failure. */
void this_case_is(const char *format, ...);
const char *this_case(void);

outcome compare_check(const uint8_t *block, size_t block_len);
outcome compare_pack(const uint64_t *words, size_t count, table_sizes tables, size_t out_len);
outcome compare_unpack(const uint8_t *block, size_t block_len, table_sizes tables, size_t room);
outcome compare_create(size_t file_len, uint64_t exam, uint32_t t);
outcome compare_open(lent_file file);
outcome compare_find(lent_file file, uint32_t slot);
outcome compare_fetch(lent_file file, uint32_t slot, table_sizes tables, size_t room);
outcome compare_append(lent_file file, uint32_t slot, const uint64_t *words, size_t count,
                       table_sizes tables, size_t bench_len);
/* Compares also with appends of the library, one after another, on a further copy of all that was lent. */
outcome compare_append_all(lent_file file, const coil_record *records, size_t records_len,
                           const uint64_t *words, size_t words_len, table_sizes tables, size_t bench_len);
outcome compare_replace(lent_file file, uint32_t slot, const uint64_t *words, size_t count,
                        table_sizes tables, size_t bench_len);
/* The new file comes into a buffer of file_len random bytes. */
outcome compare_salvage(const uint8_t *old, size_t old_len, size_t file_len, uint64_t exam, uint32_t t);

/* Counts a failure where it does not hold: for what the rules say beside both sides being equal. */
void must_hold(bool holds, const char *what);
void must_answer(outcome result, uint32_t answer);

/* Counts a comparison that was made elsewhere. */
void count_comparison(const char *call, bool right);

unsigned long comparisons(void);
unsigned long failures(void);

#endif
