/* The store and the two C versions of the same rules, as contenders; and the test that they agree. */
#include "contender.h"
#include "expert.h"
#include "inputs.h"
#include "stores.h"

#include "../include/coil.h"
#include "../tests/reference.h"

#include <stdio.h>
#include <string.h>

static uint64_t fcm[MOST_WORDS], dfcm[MOST_WORDS];

size_t pack_by(pack_call *call, const job *j, uint8_t *out, size_t room)
{
    size_t entries = (size_t)1 << j->t, length = 0;
    return call(j->words, j->count, fcm, entries, dfcm, entries, out, room, &length) == 0 ? length : 0;
}

int unpack_by(unpack_call *call, const job *j, const uint8_t *packed, size_t length, uint64_t *words)
{
    size_t entries = (size_t)1 << j->t, count = 0;
    uint32_t number = call(packed, length, fcm, entries, dfcm, entries, words, j->count, &count);
    return number == 0 && count == j->count;
}

static size_t store_pack(const job *j, uint8_t *out, size_t room)
{
    return pack_by(coil_pack, j, out, room);
}

static int store_unpack(const job *j, const uint8_t *packed, size_t length, uint64_t *words)
{
    return unpack_by(coil_unpack, j, packed, length, words);
}

static size_t independent_pack(const job *j, uint8_t *out, size_t room)
{
    return pack_by(ref_pack, j, out, room);
}

static int independent_unpack(const job *j, const uint8_t *packed, size_t length, uint64_t *words)
{
    return unpack_by(ref_unpack, j, packed, length, words);
}

static size_t fast_pack(const job *j, uint8_t *out, size_t room)
{
    return pack_by(expert_pack, j, out, room);
}

static int fast_unpack(const job *j, const uint8_t *packed, size_t length, uint64_t *words)
{
    return unpack_by(expert_unpack, j, packed, length, words);
}

const contender stores[STORES] = {
    { "store", NULL, 10, store_pack, store_unpack },
    { "independent C", NULL, 10, independent_pack, independent_unpack },
    { "expert C", NULL, 10, fast_pack, fast_unpack },
    { "store", NULL, 16, store_pack, store_unpack },
    { "independent C", NULL, 16, independent_pack, independent_unpack },
    { "expert C", NULL, 16, fast_pack, fast_unpack },
};

/* ---- The test that they agree ---- */

/* What one contender leaves behind: the block, then the words, and the tables after each. */
typedef struct {
    size_t length;
    uint8_t block[PACKED_ROOM];
    uint64_t words[MOST_WORDS];
    uint64_t tables[4][MOST_WORDS];
} outcome;

static outcome of_store, of_other;

static int run(const contender *c, const job *j, outcome *o)
{
    size_t table_bytes = (size_t)8 << j->t;
    o->length = c->pack(j, o->block, sizeof o->block);
    memcpy(o->tables[0], fcm, table_bytes);
    memcpy(o->tables[1], dfcm, table_bytes);
    if (o->length == 0 || !c->unpack(j, o->block, o->length, o->words)) {
        return 0;
    }
    memcpy(o->tables[2], fcm, table_bytes);
    memcpy(o->tables[3], dfcm, table_bytes);
    return memcmp(o->words, j->words, 8 * j->count) == 0;
}

static int same(const outcome *a, const outcome *b, unsigned t)
{
    int tables = 1;
    for (int k = 0; k < 4; k++) {
        tables = tables && memcmp(a->tables[k], b->tables[k], (size_t)8 << t) == 0;
    }
    return tables && a->length == b->length && memcmp(a->block, b->block, a->length) == 0;
}

static int agree_on(const input *in, const job *j)
{
    if (!run(&stores[0], j, &of_store)) {
        fprintf(stderr, "bench: the store does not give back %s, %zu words, t = %u\n",
                in->name, j->count, j->t);
        return 0;
    }
    for (int k = 1; k < 3; k++) {
        if (!run(&stores[k], j, &of_other) || !same(&of_store, &of_other, j->t)) {
            fprintf(stderr, "bench: the store and the %s differ on %s, %zu words, t = %u\n",
                    stores[k].name, in->name, j->count, j->t);
            return 0;
        }
    }
    return 1;
}

static unsigned long padded;    /* blocks that all three checks refused with 13 */

/* The block that the store packed last, with two bytes of 0 at one place after another near its end: the checks answer
 * the same. A check that asks for less would be faster. */
static int agree_on_padding(const input *in, const job *j)
{
    uint8_t *block = of_store.block;
    const size_t length = of_store.length;
    for (size_t at = length > 48 ? length - 40 : 8; at + 2 <= length; at++) {
        uint8_t kept[2] = { block[at], block[at + 1] };
        block[at] = block[at + 1] = 0;
        uint32_t number = coil_check(block, length);
        if (number != ref_check(block, length) || number != expert_check(block, length)) {
            fprintf(stderr, "bench: the checks differ on %s, %zu words, t = %u, with two bytes of 0 at %zu\n",
                    in->name, j->count, j->t, at);
            return 0;
        }
        padded += number == COIL_PADDED;
        memcpy(block + at, kept, 2);
    }
    return 1;
}

int stores_agree(void)
{
    static const size_t counts[] = { 0, 1, 2, 3, 4, 5, 7, 8, 9, 63, 1001, 4096, 65535, 65536 };
    static uint64_t words[MOST_WORDS];
    for (int i = 0; i < INPUTS; i++) {
        inputs[i].fill(words, MOST_WORDS);
        for (size_t k = 0; k < sizeof counts / sizeof counts[0]; k++) {
            /* The short ones are taken from the middle, where a coil map is not air. */
            size_t from = counts[k] <= MOST_WORDS / 2 ? MOST_WORDS / 2 : 0;
            for (unsigned t = 0; t <= 16; t++) {
                job j = { words + from, counts[k], row_words(counts[k]), t };
                if (!agree_on(&inputs[i], &j) || (t == 10 && !agree_on_padding(&inputs[i], &j))) {
                    return 0;
                }
            }
        }
    }
    if (padded == 0) {
        fprintf(stderr, "bench: no check refused a padded residual\n");
    }
    return padded > 0;
}
