/* See measure.h. */
#include "measure.h"
#include "clock.h"
#include "inputs.h"
#include "machine.h"

#include <stdio.h>
#include <string.h>

#ifdef __GLIBC__
#include <malloc.h>
#endif

#define ROUNDS 30
#define TURN_NS 1000000.0   /* a contender's turn ends when so much time has passed ... */
#define TURN_TIMES 16       /* ... or so many times were taken */

static uint8_t packed[PACKED_ROOM];
static size_t packed_length[MOST_WORDS];   /* of each piece */
static uint64_t unpacked[MOST_WORDS];

/* Some contenders allocate in every call. Without this the C library hands large pieces back to the kernel
 * each time, or not, by what ran before: their times would hang on the order of the contenders. */
static void keep_memory(void)
{
#ifdef __GLIBC__
    mallopt(M_MMAP_THRESHOLD, 1 << 25);
    mallopt(M_TRIM_THRESHOLD, 1 << 28);
#endif
}

int prepare(void)
{
    const char *why = emulated();
    if (why != NULL) {
        fprintf(stderr, "bench: nothing measured: %s, and a time under an emulator says nothing\n", why);
        return 3;
    }
    keep_memory();
    if (!stores_agree()) {
        return 1;
    }
    fprintf(stderr, "bench: the store and both C versions agree on every input, t = 0 to 16\n");
    return 0;
}

static job piece(const contender *c, const uint64_t *words, size_t count, size_t k)
{
    return (job){ words + k * count, count, row_words(count), c->t };
}

/* Packs all pieces, each into its own part of the room. Answers their length together, or 0. */
static size_t pack_all(const contender *c, const uint64_t *words, size_t count)
{
    size_t pieces = MOST_WORDS / count, room = PACKED_ROOM / pieces, length = 0;
    for (size_t k = 0; k < pieces; k++) {
        job j = piece(c, words, count, k);
        packed_length[k] = c->pack(&j, packed + k * room, room);
        if (packed_length[k] == 0) {
            return 0;
        }
        length += packed_length[k];
    }
    return length;
}

static int unpack_all(const contender *c, const uint64_t *words, size_t count)
{
    size_t pieces = MOST_WORDS / count, room = PACKED_ROOM / pieces;
    int whole = 1;
    for (size_t k = 0; k < pieces; k++) {
        job j = piece(c, words, count, k);
        whole = c->unpack(&j, packed + k * room, packed_length[k], unpacked + k * count) && whole;
    }
    return whole;
}

static void check(result *r, const uint64_t *words, size_t count)
{
    r->stands = IS_NOT_EXACT;
    r->length = pack_all(r->who, words, count);
    memset(unpacked, 0xA5, sizeof unpacked);
    if (r->length != 0 && unpack_all(r->who, words, count)
        && memcmp(unpacked, words, sizeof unpacked) == 0) {
        r->stands = IS_EXACT;
    }
}

static void take_turn(const contender *c, const uint64_t *words, size_t count, int packs, double *shortest)
{
    double spent = 0;
    for (int k = 0; k < TURN_TIMES && spent < TURN_NS; k++) {
        double start = now_ns();
        if (packs) {
            pack_all(c, words, count);
        } else {
            unpack_all(c, words, count);
        }
        double taken = now_ns() - start;
        spent += taken;
        if (*shortest == 0 || taken < *shortest) {
            *shortest = taken;
        }
    }
}

void measure(const contender *const *whom, size_t number, const uint64_t *words, size_t count,
             result *results)
{
    for (size_t i = 0; i < number; i++) {
        results[i] = (result){ whom[i], IS_MISSING, 0, 0, 0 };
        if (whom[i]->pack != NULL) {
            check(&results[i], words, count);
        }
    }
    for (int round = 0; round < ROUNDS; round++) {
        for (size_t i = 0; i < number; i++) {
            if (results[i].stands == IS_EXACT) {
                take_turn(whom[i], words, count, 1, &results[i].pack_ns);
                take_turn(whom[i], words, count, 0, &results[i].unpack_ns);
            }
        }
    }
}
