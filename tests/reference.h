/* An independent implementation of the store's rules, to compare the library with.
 *
 * Each call has the same arguments and the same answer as the call of coil.h with the same ending.
 * It is written to be checked by eye against the rules, not to be fast. It may allocate.
 */
#ifndef REFERENCE_H
#define REFERENCE_H

#include <stddef.h>
#include <stdint.h>

uint32_t ref_check(const uint8_t *block, size_t block_len);

uint32_t ref_pack(const uint64_t *words, size_t words_len,
                  uint64_t *fcm, size_t fcm_len, uint64_t *dfcm, size_t dfcm_len,
                  uint8_t *out, size_t out_len, size_t *length);

/* Writes the block of words as it was packed before request L2, when whole zero bytes were compared, and answers
 * its length. It refuses nothing: lend two tables of the same entries, a power of two, and room for the worst block. */
size_t ref_pack_before(const uint64_t *words, size_t words_len, uint64_t *fcm, uint64_t *dfcm,
                       size_t entries, uint8_t *out);

/* Whether dfcm is chosen; and the low three bits of the code of the chosen residual. */
typedef int ref_choice(uint64_t fcm_residual, uint64_t dfcm_residual);
typedef unsigned ref_low_bits(uint64_t residual);

/* Writes a block of words as a rival would: by any choice, and with low bits that leave room for the residual. The
 * choice is asked once for each word, in order. The rest is as in ref_pack_before. */
size_t ref_pack_as(const uint64_t *words, size_t words_len, uint64_t *fcm, uint64_t *dfcm, size_t entries,
                   uint8_t *out, ref_choice *dfcm_chosen, ref_low_bits *low_bits_of);

uint32_t ref_unpack(const uint8_t *block, size_t block_len,
                    uint64_t *fcm, size_t fcm_len, uint64_t *dfcm, size_t dfcm_len,
                    uint64_t *words, size_t words_len, size_t *count);

uint32_t ref_create(uint8_t *file, size_t file_len, uint64_t exam, uint32_t t, size_t *length);

uint32_t ref_open(const uint8_t *file, size_t file_len, size_t length, uint64_t exam);

uint32_t ref_find(const uint8_t *file, size_t file_len, size_t length, uint64_t exam, uint32_t slot,
                  size_t *offset, size_t *block_length);

uint32_t ref_fetch(const uint8_t *file, size_t file_len, size_t length, uint64_t exam, uint32_t slot,
                   uint64_t *fcm, size_t fcm_len, uint64_t *dfcm, size_t dfcm_len,
                   uint64_t *words, size_t words_len, size_t *count);

uint32_t ref_append(uint8_t *file, size_t file_len, size_t length, uint64_t exam, uint32_t slot,
                    const uint64_t *words, size_t words_len,
                    uint64_t *fcm, size_t fcm_len, uint64_t *dfcm, size_t dfcm_len,
                    uint8_t *bench, size_t bench_len, size_t *new_length);

/* A map of a list: its slot, and where its words are in the word buffer. Laid out as coil_record. */
typedef struct {
    uint32_t slot;
    size_t first;
    size_t count;
} ref_record;

uint32_t ref_append_all(uint8_t *file, size_t file_len, size_t length, uint64_t exam,
                        const ref_record *records, size_t records_len,
                        const uint64_t *words, size_t words_len,
                        uint64_t *fcm, size_t fcm_len, uint64_t *dfcm, size_t dfcm_len,
                        uint8_t *bench, size_t bench_len, size_t *appended, size_t *new_length);

uint32_t ref_replace(uint8_t *file, size_t file_len, size_t length, uint64_t exam, uint32_t slot,
                     const uint64_t *words, size_t words_len,
                     uint64_t *fcm, size_t fcm_len, uint64_t *dfcm, size_t dfcm_len,
                     uint8_t *bench, size_t bench_len, size_t *new_length);

uint32_t ref_salvage(const uint8_t *old, size_t old_len, uint8_t *file, size_t file_len,
                     uint64_t new_exam, uint32_t new_t,
                     size_t *new_length, size_t *kept, size_t *left_over, uint32_t *renumbered);

#endif
