/* Expert C for blocks, as a yardstick for speed. The arguments and the answers are those of coil_pack and
 * coil_unpack, with one thing left out: see expert.c. */
#ifndef BENCH_EXPERT_H
#define BENCH_EXPERT_H

#include <stddef.h>
#include <stdint.h>

uint32_t expert_pack(const uint64_t *words, size_t words_len,
                     uint64_t *fcm, size_t fcm_len, uint64_t *dfcm, size_t dfcm_len,
                     uint8_t *out, size_t out_len, size_t *length);

uint32_t expert_unpack(const uint8_t *block, size_t block_len,
                       uint64_t *fcm, size_t fcm_len, uint64_t *dfcm, size_t dfcm_len,
                       uint64_t *words, size_t words_len, size_t *count);

uint32_t expert_check(const uint8_t *block, size_t block_len);

#endif
