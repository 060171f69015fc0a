/* No block is shorter: rival blocks of the same words, by any choice and with any low bits that leave room; blocks of
 * random codes and bytes; short ones with every list of codes. What they read as is packed, and is no longer.
 *
 * A rival with low bits that leave more room than is needed is padded. It is refused since request L6, and is no
 * shorter for that: what it would read as is read here from the same block without the padding. */
#include "groups.h"
#include "inputs.h"
#include "reference.h"
#include "words.h"

#include <string.h>

#define MOST 300

static uint64_t words[MOST];
static uint8_t rival[WORST(MOST)];
static uint8_t tight[WORST(MOST)];      /* the rival without its padding */
static size_t fewest;                   /* residual bytes that no code for these words can do without */
static bool may_pad, is_padded;         /* the rival that is being made */
static unsigned long longer, as_short;  /* rivals that are longer; and as short, with other bytes */
static unsigned long padded, taken;     /* rivals that are refused, and those that are not, of 20 words and more */

static int any_choice(uint64_t fcm_residual, uint64_t dfcm_residual)
{
    unsigned by_fcm = fewest_bytes(fcm_residual), by_dfcm = fewest_bytes(dfcm_residual);
    fewest += by_fcm < by_dfcm ? by_fcm : by_dfcm;
    return random_below(2) == 1;
}

/* Half of the time those that a packer takes, and in every second rival at each word. */
static unsigned any_low_bits(uint64_t residual)
{
    unsigned low_bits = (unsigned)random_below(8), needed = fewest_bytes(residual);
    bool as_packed = !may_pad || random_below(2) == 1;
    while (residual_width[low_bits] < needed || (as_packed && residual_width[low_bits] > needed)) {
        low_bits = (low_bits + 1) % 8;
    }
    is_padded = is_padded || residual_width[low_bits] > needed;
    return low_bits;
}

/* Check and unpack refuse what is padded, and nothing else. (What is not padded is unpacked for its words.) */
static void is_refused_where_padded(size_t length, size_t count, uint32_t t, bool refused)
{
    must_answer(compare_check(rival, length), refused ? 13 : 0);
    if (refused) {
        must_answer(compare_unpack(rival, length, tables_of(t), count), 13);
    }
}

/* The words that the rival reads as, refused or not. Until the next call. */
static const uint64_t *words_of_the_rival(size_t length, size_t count, uint32_t t)
{
    size_t tight_length = tighten(tight, rival);
    outcome unpacked = compare_unpack(tight, tight_length, tables_of(t), count);
    must_answer(unpacked, 0);
    must_hold(unpacked.first == count && tight_length <= length, "a block without its padding gives as many words");
    must_hold(tight_length < length || memcmp(tight, rival, length) == 0, "without padding it is the same block");
    return unpacked.words;
}

static void against_a_rival(size_t count, uint32_t t, unsigned round)
{
    static uint64_t fcm[65536], dfcm[65536];
    (void)round;
    fewest = 0;
    may_pad = random_below(2) == 1;
    is_padded = false;
    size_t length = ref_pack_as(words, count, fcm, dfcm, (size_t)1 << t, rival, any_choice, any_low_bits);
    is_refused_where_padded(length, count, t, is_padded);
    must_hold(memcmp(words_of_the_rival(length, count, t), words, 8 * count) == 0, "a rival block gives the words");
    outcome packed = compare_pack(words, count, tables_of(t), WORST(count));
    must_answer(packed, 0);
    must_hold(packed.first == 8 + (count + 1) / 2 + fewest, "a block has as few bytes as any codes can have");
    longer += length > packed.first;
    as_short += length == packed.first && memcmp(packed.bytes, rival, length) != 0;
    padded += count >= 20 && is_padded;
    taken += count >= 20 && !is_padded;
}

/* ---- Blocks that no packer wrote ---- */

/* What the block reads as is packed, and the block of it is no longer. */
static void read_and_packed(size_t length, size_t count, uint32_t t)
{
    memcpy(words, words_of_the_rival(length, count, t), 8 * count);
    outcome packed = compare_pack(words, count, tables_of(t), WORST(count));
    must_answer(packed, 0);
    must_hold(packed.first <= length, "the block of what was read is no longer");
}

/* All residual bytes of some values, one after another. Where some are padding, the block without it is another one of
 * these, and is read and packed in its turn. */
static void every_residual(size_t at, size_t length, size_t count, uint32_t t)
{
    static const uint8_t values[] = { 0x00, 0x01, 0x80, 0xFF };
    if (at == length) {
        bool refused = has_padding(rival);
        is_refused_where_padded(length, count, t, refused);
        if (!refused) {
            read_and_packed(length, count, t);
        }
        return;
    }
    for (size_t i = 0; i < sizeof values; i++) {
        rival[at] = values[i];
        every_residual(at + 1, length, count, t);
    }
}

/* Every list of codes with at most so many residual bytes. A list is a number in base sixteen, its first code the
 * highest digit. */
static void every_short_block(size_t count, size_t most_residual_bytes, uint32_t t)
{
    for (unsigned long codes = 0; codes < 1ul << (4 * count); codes++) {
        size_t start = 8 + (count + 1) / 2, residual_bytes = 0;
        for (size_t i = 0; i < count; i++) {
            residual_bytes += residual_width[codes >> (4 * i) & 7];
        }
        if (residual_bytes <= most_residual_bytes) {
            this_case_is("short block of %zu words, t = %u, codes %lX", count, t, codes);
            unsigned long filled = count % 2 == 1 ? 16 * codes + 7 : codes;
            for (size_t i = 8; i < start; i++) {
                rival[i] = (uint8_t)(filled >> 8 * (start - 1 - i));
            }
            put_field(rival, 4, count);
            put_field(rival + 4, 4, start + residual_bytes);
            every_residual(start, start + residual_bytes, count, t);
        }
    }
}

void group_shortest(unsigned rounds)
{
    longer = as_short = padded = taken = 0;
    every_kind_and_t("a rival", rounds, words, MOST, against_a_rival);
    must_hold(longer > 0 && as_short > 0, "some rivals are longer, and some as short with other bytes");
    must_hold(padded > 0 && taken > 0, "some long rivals are padded, and some are not");
    every_forged_block("a forged block, packed again", rounds, rival, read_and_packed);
    every_padded_block("a padded block, packed again", rounds, rival, read_and_packed);
    for (uint32_t t = 0; t <= 2; t++) {
        for (size_t count = 0; count <= 3; count++) {
            every_short_block(count, 3, t);
        }
    }
}
