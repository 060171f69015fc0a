/* See words.h. */
#include "words.h"

#include <string.h>

const char *const kind_names[KINDS] = {
    "zeros", "equal", "ramp", "runs", "air map", "noise", "fcm widths", "dfcm widths", "odd doubles",
    "single bits"
};

static uint64_t state = 1;

void seed_random(uint64_t seed)
{
    state = seed * 2 + 1;
}

/* Any seed gives a long sequence: a counter with an odd step, then a mix of all its bits. */
uint64_t random_word(void)
{
    state += UINT64_C(0x9E3779B97F4A7C15);
    uint64_t mixed = state;
    mixed = (mixed ^ (mixed >> 30)) * UINT64_C(0xBF58476D1CE4E5B9);
    mixed = (mixed ^ (mixed >> 27)) * UINT64_C(0x94D049BB133111EB);
    return mixed ^ (mixed >> 31);
}

size_t random_below(size_t below)
{
    return (size_t)(random_word() % below);
}

void random_bytes(uint8_t *bytes, size_t count)
{
    for (size_t i = 0; i < count; i++) {
        bytes[i] = (uint8_t)(random_word() >> 24);
    }
}

/* A random word of which only the low bytes, 0 to 8 of them, may be set. */
static uint64_t low_bytes(size_t bytes)
{
    return bytes == 0 ? 0 : random_word() >> (64 - 8 * bytes);
}

static void make_runs(uint64_t *words, size_t count)
{
    uint64_t word = random_word();
    size_t i = 0;
    while (i < count) {
        size_t run = 1 + random_below(40);
        uint64_t difference = random_below(2) ? 0 : low_bytes(random_below(9));
        word = random_below(3) ? word + low_bytes(8) : word;
        for (; run > 0 && i < count; run--) {
            words[i++] = word;
            word += difference;
        }
    }
}

static void make_air_map(uint64_t *words, size_t count)
{
    size_t i = 0;
    double level = 0.5;
    while (i < count) {
        size_t air = 1 + random_below(64);
        for (size_t k = 0; k < air && i < count; k++) {
            words[i++] = 0;
        }
        for (size_t k = 0; k < (air + 3) / 4 && i < count; k++) {
            level += ((double)random_below(2001) - 1000.0) / 65536.0;
            memcpy(&words[i++], &level, 8);
        }
    }
}

/* Repeats words of a short period, so that a settled predictor is right but for the changed bytes. */
static void make_fcm_widths(uint64_t *words, size_t count)
{
    size_t period = 1 + random_below(4);
    for (size_t i = 0; i < count; i++) {
        words[i] = i < period ? random_word() : words[i - period] ^ low_bytes(random_below(9));
    }
}

static void make_dfcm_widths(uint64_t *words, size_t count)
{
    uint64_t difference = random_word();
    uint64_t last = random_word();
    for (size_t i = 0; i < count; i++) {
        last = (last + difference) ^ low_bytes(random_below(9));
        words[i] = last;
    }
}

static void make_odd_doubles(uint64_t *words, size_t count)
{
    static const uint64_t patterns[] = {
        UINT64_C(0x0000000000000000), UINT64_C(0x8000000000000000),   /* both zeros */
        UINT64_C(0x7FF0000000000000), UINT64_C(0xFFF0000000000000),   /* infinities */
        UINT64_C(0x7FF8000000000000), UINT64_C(0xFFF8000000000000),   /* quiet NaN */
        UINT64_C(0x7FF0000000000001), UINT64_C(0xFFF7FFFFFFFFFFFF),   /* signalling NaN */
        UINT64_C(0x7FFFFFFFFFFFFFFF), UINT64_C(0xFFFFFFFFFFFFFFFF),   /* NaN, all payload bits */
        UINT64_C(0x0000000000000001), UINT64_C(0x800FFFFFFFFFFFFF),   /* subnormal */
        UINT64_C(0x3FF0000000000000), UINT64_C(0xBFF0000000000000)    /* 1 and -1 */
    };
    for (size_t i = 0; i < count; i++) {
        words[i] = patterns[random_below(sizeof patterns / sizeof patterns[0])];
        if (random_below(8) == 0) {
            words[i] |= UINT64_C(0x7FF0000000000000) | low_bytes(6);   /* a NaN with a random payload */
        }
    }
}

static void make_ramp(uint64_t *words, size_t count, uint64_t difference)
{
    uint64_t word = random_word();
    for (size_t i = 0; i < count; i++) {
        words[i] = word;
        word += difference;
    }
}

void make_words(kind_of_words kind, uint64_t *words, size_t count)
{
    switch (kind) {
    case EQUAL: make_ramp(words, count, 0); return;
    case RAMP: make_ramp(words, count, low_bytes(random_below(9))); return;
    case RUNS: make_runs(words, count); return;
    case AIR_MAP: make_air_map(words, count); return;
    case FCM_WIDTHS: make_fcm_widths(words, count); return;
    case DFCM_WIDTHS: make_dfcm_widths(words, count); return;
    case ODD_DOUBLES: make_odd_doubles(words, count); return;
    default: break;
    }
    for (size_t i = 0; i < count; i++) {
        words[i] = kind == NOISE ? random_word()
                 : kind == SINGLE_BITS ? UINT64_C(1) << random_below(64) : 0;
    }
}
