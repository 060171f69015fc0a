/* Calls with the arguments of coil_pack and coil_unpack, as contenders. */
#ifndef BENCH_STORES_H
#define BENCH_STORES_H

#include "contender.h"

typedef uint32_t pack_call(const uint64_t *, size_t, uint64_t *, size_t, uint64_t *, size_t,
                           uint8_t *, size_t, size_t *);
typedef uint32_t unpack_call(const uint8_t *, size_t, uint64_t *, size_t, uint64_t *, size_t,
                             uint64_t *, size_t, size_t *);

size_t pack_by(pack_call *call, const job *j, uint8_t *out, size_t room);
int unpack_by(unpack_call *call, const job *j, const uint8_t *packed, size_t length, uint64_t *words);

#endif
