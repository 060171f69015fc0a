/* Blocks in C as one writes it for speed: words are stored and loaded whole at any address, leading zeros are
 * counted by the machine, and a turn does two words and writes their code byte once.
 *
 * One thing is left out, to its advantage: a store of 8 bytes may spill up to 7 bytes past the end of the
 * block. They are inside the room that was lent, but the rules say that they keep their old content.
 */
#include "expert.h"

#include <string.h>

#if __BYTE_ORDER__ != __ORDER_LITTLE_ENDIAN__
#error "expert.c stores words as they lie in memory, which is right with the low byte first only"
#endif

#define HEADER 8u
#define MOST_WORDS 65536u
#define FILLER 7u

typedef struct {
    uint64_t *fcm, *dfcm;
    uint64_t mask, fcm_hash, dfcm_hash, last;
} predictors;

static predictors start(uint64_t *fcm, uint64_t *dfcm, size_t entries)
{
    memset(fcm, 0, 8 * entries);
    memset(dfcm, 0, 8 * entries);
    return (predictors){ fcm, dfcm, entries - 1, 0, 0, 0 };
}

static inline void learn(predictors *p, uint64_t v)
{
    uint64_t d = v - p->last;
    p->fcm[p->fcm_hash] = v;
    p->dfcm[p->dfcm_hash] = d;
    p->fcm_hash = ((p->fcm_hash << 6) ^ (v >> 48)) & p->mask;
    p->dfcm_hash = ((p->dfcm_hash << 2) ^ (d >> 40)) & p->mask;
    p->last = v;
}

/* Low bits 0 1 2 3 4 5 6 7 write 8 7 6 5 3 2 1 0 bytes. */
static inline unsigned bytes_written(unsigned low)
{
    return 8 - low - (low >> 2);
}

static inline void put(uint8_t *at, uint64_t value)
{
    memcpy(at, &value, 8);
}

static inline uint64_t get(const uint8_t *at)
{
    uint64_t value;
    memcpy(&value, at, 8);
    return value;
}

static int bad_tables(size_t fcm_len, size_t dfcm_len)
{
    return fcm_len != dfcm_len || fcm_len == 0 || fcm_len > MOST_WORDS || (fcm_len & (fcm_len - 1)) != 0;
}

/* ---- Packing ---- */

/* Writes a word's residual and answers its code. Most words of a map are predicted whole, so that is asked
 * first. */
static inline unsigned pack_word(predictors *p, uint64_t v, uint8_t **at)
{
    uint64_t by_fcm = v ^ p->fcm[p->fcm_hash];
    uint64_t by_dfcm = v ^ (p->dfcm[p->dfcm_hash] + p->last);
    learn(p, v);
    if (by_fcm == 0) {
        return 7;
    }
    if (by_dfcm == 0) {
        return 15;
    }
    unsigned fcm_bits = (unsigned)__builtin_clzll(by_fcm);
    unsigned dfcm_bits = (unsigned)__builtin_clzll(by_dfcm);
    unsigned zeros = (dfcm_bits > fcm_bits ? dfcm_bits : fcm_bits) / 8;
    unsigned low = zeros - (zeros >= 4);
    put(*at, dfcm_bits > fcm_bits ? by_dfcm : by_fcm);
    *at += bytes_written(low);
    return low + (dfcm_bits > fcm_bits ? 8 : 0);
}

uint32_t expert_pack(const uint64_t *words, size_t words_len,
                     uint64_t *fcm, size_t fcm_len, uint64_t *dfcm, size_t dfcm_len,
                     uint8_t *out, size_t out_len, size_t *length)
{
    size_t code_bytes = (words_len + 1) / 2;
    *length = 0;
    if (bad_tables(fcm_len, dfcm_len)) {
        return 1;
    }
    if (words_len > MOST_WORDS) {
        return 2;
    }
    if (out_len < HEADER + code_bytes + 8 * words_len) {
        return 3;
    }
    predictors p = start(fcm, dfcm, fcm_len);
    uint8_t *codes = out + HEADER, *at = codes + code_bytes;
    for (size_t i = 0; i + 1 < words_len; i += 2) {
        unsigned first = pack_word(&p, words[i], &at);
        unsigned second = pack_word(&p, words[i + 1], &at);
        *codes++ = (uint8_t)(16 * first + second);
    }
    if (words_len % 2 == 1) {
        *codes = (uint8_t)(16 * pack_word(&p, words[words_len - 1], &at) + FILLER);
    }
    *length = (size_t)(at - out);
    put(out, words_len + ((uint64_t)*length << 32));
    return 0;
}

/* ---- Unpacking ---- */

/* The bytes that the codes promise. Plain sums, so that the compiler does many at a time. */
static size_t promised(const uint8_t *codes, size_t count)
{
    uint32_t bytes = 0;
    for (size_t i = 0; i < count / 2; i++) {
        bytes += bytes_written(codes[i] & 7) + bytes_written((codes[i] >> 4) & 7);
    }
    return count % 2 == 0 ? bytes : bytes + bytes_written((codes[count / 2] >> 4) & 7);
}

/* What a code byte says of its two residuals: where the first ends, where both end, and what the two top bytes of each
 * must not be below. A top byte of 0 is padding; by low bits 3 it takes two; low bits 7 have no byte. */
typedef struct {
    uint16_t first, both, least_first, least_second;
} code_pair;

#define WRITTEN(low) (8 - (low) - ((low) >> 2))
#define LEAST(low) ((low) == 7 ? 0 : (low) == 3 ? 1 : 256)
#define PAIR(high, low) { WRITTEN(high), WRITTEN(high) + WRITTEN(low), LEAST(high), LEAST(low) }
#define EIGHT(high) PAIR(high, 0), PAIR(high, 1), PAIR(high, 2), PAIR(high, 3), \
                    PAIR(high, 4), PAIR(high, 5), PAIR(high, 6), PAIR(high, 7)
#define SIXTEEN(high) EIGHT(high), EIGHT(high)      /* the predictor's bit says nothing here */
#define HALF SIXTEEN(0), SIXTEEN(1), SIXTEEN(2), SIXTEEN(3), SIXTEEN(4), SIXTEEN(5), SIXTEEN(6), SIXTEEN(7)

static const code_pair code_pairs[256] = { HALF, HALF };

/* The last two bytes before the end. Of a residual of one byte the other stands before it, which is in the block too,
 * and does not matter: it is the low one. */
static inline unsigned top_two(const uint8_t *end)
{
    uint16_t value;
    memcpy(&value, end - 2, 2);
    return value;
}

/* Only the place goes from turn to turn, and no turn branches. The filler, which is 7 by now, is a code without a byte,
 * so that an odd count needs nothing of its own. */
static int padded(const uint8_t *codes, size_t code_bytes)
{
    const uint8_t *at = codes + code_bytes;
    unsigned fault = 0;
    for (size_t i = 0; i < code_bytes; i++) {
        const code_pair *pair = &code_pairs[codes[i]];
        fault |= top_two(at + pair->first) < pair->least_first;
        at += pair->both;
        fault |= top_two(at) < pair->least_second;
    }
    return fault != 0;
}

uint32_t expert_check(const uint8_t *block, size_t block_len)
{
    if (block_len < HEADER) {
        return 4;
    }
    size_t count = get(block) & 0xFFFFFFFFu;
    if (count > MOST_WORDS) {
        return 2;
    }
    size_t fixed = HEADER + (count + 1) / 2;
    if (get(block) >> 32 != block_len || fixed > block_len
        || fixed + promised(block + HEADER, count) != block_len) {
        return 5;
    }
    if (count % 2 == 1 && (block[fixed - 1] & 15) != FILLER) {
        return 6;
    }
    return padded(block + HEADER, fixed - HEADER) ? 13 : 0;
}

/* By the low bits of the code. */
static const uint64_t residual_mask[8] = {
    0xFFFFFFFFFFFFFFFF, 0xFFFFFFFFFFFFFF, 0xFFFFFFFFFFFF, 0xFFFFFFFFFF, 0xFFFFFF, 0xFFFF, 0xFF, 0
};

/* The next residual. Never reads past the block: near its end the last 8 bytes are loaded and shifted, in two
 * steps since the shift can be 64. A block has 8 bytes at least. */
static inline uint64_t residual(unsigned low, const uint8_t *at, const uint8_t *last_load)
{
    const uint8_t *from = at < last_load ? at : last_load;
    unsigned half = 4 * (unsigned)(at - from);
    return ((get(from) >> half) >> half) & residual_mask[low];
}

/* Loads only the entry that the code names: the other table need not be in the cache. */
static inline uint64_t unpack_word(predictors *p, unsigned code, const uint8_t **at, const uint8_t *last_load)
{
    uint64_t predicted = code >= 8 ? p->dfcm[p->dfcm_hash] + p->last : p->fcm[p->fcm_hash];
    if (code % 8 == 7) {
        learn(p, predicted);
        return predicted;
    }
    uint64_t v = predicted ^ residual(code % 8, *at, last_load);
    *at += bytes_written(code % 8);
    learn(p, v);
    return v;
}

uint32_t expert_unpack(const uint8_t *block, size_t block_len,
                       uint64_t *fcm, size_t fcm_len, uint64_t *dfcm, size_t dfcm_len,
                       uint64_t *words, size_t words_len, size_t *count)
{
    *count = 0;
    if (bad_tables(fcm_len, dfcm_len)) {
        return 1;
    }
    uint32_t bad = expert_check(block, block_len);
    if (bad != 0) {
        return bad;
    }
    size_t declared = get(block) & 0xFFFFFFFFu;
    if (words_len < declared) {
        return 3;
    }
    predictors p = start(fcm, dfcm, fcm_len);
    const uint8_t *codes = block + HEADER, *at = codes + (declared + 1) / 2;
    const uint8_t *last_load = block + block_len - 8;
    for (size_t i = 0; i + 1 < declared; i += 2) {
        unsigned pair = *codes++;
        words[i] = unpack_word(&p, pair / 16, &at, last_load);
        words[i + 1] = unpack_word(&p, pair % 16, &at, last_load);
    }
    if (declared % 2 == 1) {
        words[declared - 1] = unpack_word(&p, *codes / 16u, &at, last_load);
    }
    *count = declared;
    return 0;
}
