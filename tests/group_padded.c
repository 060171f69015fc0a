/* Padded residuals: refused with 13, behind all else that can be wrong with a block and before too little room. Each
 * code at each place, each place of long blocks, blocks that were packed, files in which one block is padded. The
 * numbers asked for are told from how a block was made, and not by the reference. */
#include "groups.h"
#include "inputs.h"
#include "reference.h"
#include "words.h"

#include <string.h>

#define MOST 300

static uint64_t words[MOST];
static uint8_t block[WORST(MOST) + 1], right[WORST(MOST)];

static void is_answered(size_t length, uint32_t t, uint32_t number)
{
    must_answer(compare_check(block, length), number);
    must_answer(compare_unpack(block, length, tables_of(t), get_field(block, 4)), number);
}

/* ---- Each code at each place ---- */

/* How many zero bytes on top are too many, by the low bits. Low bits 3 stand for three zero bytes or four. */
static const unsigned too_many[7] = { 1, 1, 1, 2, 1, 1, 1 };

/* So many bytes of 0 on top. Below them stands no other 0; or, where it is bare, one byte that is not 0, and then 0. */
static void put_residual(uint8_t *at, unsigned written, unsigned zeros, bool bare)
{
    memset(at, 0, written);
    for (unsigned i = written - zeros; i > 0; i--) {
        at[i - 1] = (uint8_t)(1 + random_below(255));
        if (bare) {
            return;
        }
    }
}

/* Every number of zero bytes on top of one residual, up to all of them. The others are not padded. */
static void every_residual(size_t index, size_t length, uint32_t t)
{
    unsigned code = code_at(block, index), written = residual_width[code % 8];
    for (unsigned i = 0; i < 2 * (written + 1); i++) {
        unsigned zeros = i / 2;
        put_residual(block + residual_at(block, index), written, zeros, i % 2 == 1);
        this_case_is("code %X is number %zu of %u words, %u of its %u bytes are 0 on top", code, index,
                     (unsigned)get_field(block, 4), zeros, written);
        is_answered(length, t, zeros >= too_many[code % 8] ? 13 : 0);
    }
}

/* First, in the middle and last, in both halves of a code byte, of odd and even counts, by both predictors. */
static void every_code_and_place(void)
{
    uint8_t codes[7];
    for (size_t count = 1; count <= sizeof codes; count++) {
        for (size_t i = 0; i < 16 * count; i++) {
            size_t index = i / 16;
            for (size_t k = 0; k < count; k++) {
                codes[k] = (uint8_t)random_below(16);
            }
            codes[index] = (uint8_t)(i % 16);
            if (codes[index] % 8 != 7) {
                every_residual(index, forge_block_of(block, codes, count), (uint32_t)random_below(8));
            }
        }
    }
}

/* ---- A byte of 0 that is no padding ---- */

/* Every list of codes with low bits 3 and 7. Each low bits 3 has one 0 on top, which is right. It is the byte before
 * the place of a code that has none. */
static void a_zero_before_low_bits_7(void)
{
    static const uint8_t some[4] = { 3, 11, 7, 15 };
    for (unsigned list = 0; list < 256; list++) {
        const uint8_t codes[4] = { some[list >> 6], some[list >> 4 & 3], some[list >> 2 & 3], some[list & 3] };
        for (size_t count = 3; count <= 4; count++) {
            size_t length = forge_block_of(block, codes, count);
            for (size_t i = 0; i < count; i++) {
                put_residual(block + residual_at(block, i), residual_width[codes[i] % 8], codes[i] % 8 == 3, i % 2);
            }
            this_case_is("%zu codes with low bits 3 and 7, list %u", count, list);
            is_answered(length, list % 4, 0);
        }
    }
}

/* The last code byte is 0, and the first words have no residual byte: what stands before their place is that byte. */
static void a_code_byte_of_0(void)
{
    static const uint8_t lists[3][6] = { { 7, 7, 0, 0 }, { 15, 0, 0, 0 }, { 7, 15, 15, 7, 0, 0 } };
    static const size_t counts[3] = { 4, 4, 6 };
    for (size_t i = 0; i < 3; i++) {
        size_t length = forge_block_of(block, lists[i], counts[i]);
        this_case_is("a code byte of 0, list %zu", i);
        is_answered(length, 3, 0);
        pad_residual(block, counts[i] - 1);
        is_answered(length, 3, 13);
    }
}

/* ---- Long blocks ---- */

/* One residual after the other is padded, and made right again: of many codes one is enough, also the very last. */
static void every_place_of_a_long_block(size_t count)
{
    size_t length = forge_block(right, count);
    uint32_t t = (uint32_t)random_below(11);
    memcpy(block, right, length);
    is_answered(length, t, 0);
    for (size_t index = 0; index < count; index++) {
        this_case_is("number %zu of %zu words is padded", index, count);
        if (pad_residual(block, index)) {
            must_answer(compare_check(block, length), 13);
        }
        if (index % 32 == 0 || index + 1 == count) {
            must_answer(compare_unpack(block, length, tables_of(t), count), code_at(block, index) % 8 == 7 ? 0 : 13);
        }
        memcpy(block, right, length);
    }
}

/* ---- Blocks that were packed ---- */

/* By the rule of today, or by the one before request L2: no residual is padded. Then one is. */
static void packed_and_padded(size_t count, uint32_t t, unsigned round)
{
    static uint64_t fcm[65536], dfcm[65536];
    outcome packed = compare_pack(words, count, tables_of(t), WORST(count));
    size_t length = packed.first;
    memcpy(block, packed.bytes, length);
    if (round % 2 == 1) {
        length = ref_pack_before(words, count, fcm, dfcm, (size_t)1 << t, block);
    }
    must_hold(!has_padding(block), "no packer pads a residual");
    must_answer(compare_check(block, length), 0);
    if (count > 0 && pad_residual(block, random_below(count))) {
        table_sizes differ = { 1, 2 };
        is_answered(length, t, 13);
        must_answer(compare_unpack(block, length, tables_of(t), random_below(count)), 13);
        must_answer(compare_unpack(block, length, differ, count), 1);
        must_answer(compare_check(block, length - 1), 5);
        block[8 + count / 2] ^= count % 2 == 1 ? 8 : 0;
        must_answer(compare_check(block, length), count % 2 == 1 ? 6 : 13);
        block[length] = 0;
        put_field(block + 4, 4, length + 1);
        must_answer(compare_check(block, length + 1), 5);
    }
}

/* ---- Files ---- */

#define WORDS_IN_A_FILE 9
#define MOST_IN_A_FILE 4

static uint32_t slot_of(size_t index)
{
    return (uint32_t)(3 * index + 1);
}

/* A file in which the block at one place is padded. Opening and finding do not look into it. */
static exam_file file_with_a_padded_block(size_t entries, size_t place, uint32_t t)
{
    exam_file f = new_exam_file(32 + (MOST_IN_A_FILE + 3) * (12 + WORST(WORDS_IN_A_FILE)), 6, t);
    for (size_t i = 0; i < entries; i++) {
        size_t count = 1 + random_below(WORDS_IN_A_FILE);
        size_t length = i == place ? forge_padded_block(block, count) : forge_block(block, count);
        add_block(&f, slot_of(i), block, length);
    }
    return f;
}

/* The block at the place is found as it stood, and refused; all others are fetched. */
static void is_refused_alone(const exam_file *f, size_t place)
{
    must_answer(compare_open(lend_with_spare(f, 0)), 0);
    for (size_t i = 0; i < f->entries; i++) {
        lent_file lending = lend_with_spare(f, random_below(9));
        uint32_t slot = (uint32_t)get_field(entry_of(f, i) + AT_SLOT, 4);
        must_answer(compare_find(lending, slot), 0);
        must_answer(compare_fetch(lending, slot, tables_of(f->t), WORDS_IN_A_FILE), i == place ? 13 : 0);
    }
}

/* What comes before 13, and 3, which comes behind it. */
static void order_of_fetch(const exam_file *f, size_t place)
{
    lent_file lending = lend_with_spare(f, 0);
    must_answer(compare_fetch(lending, slot_of(place) + 1, tables_of(f->t), 0), 10);
    must_answer(compare_fetch(lending, slot_of(place), tables_of(f->t + 1), 0), 1);
    must_answer(compare_fetch(lending, slot_of(place), tables_of(f->t), 0), 13);
    lending.exam++;
    must_answer(compare_fetch(lending, slot_of(place), tables_of(f->t + 1), 0), 8);
}

/* Salvaging ends there: the blocks before it are kept, and all else is left over. */
static void salvage_ends_at(const exam_file *f, size_t place)
{
    size_t start = get_field(entry_of(f, place) + AT_OFFSET, 4);
    outcome salvaged = compare_salvage(f->bytes, f->length, f->length, f->exam, f->t);
    must_answer(salvaged, 0);
    must_hold(salvaged.second == place && salvaged.left_over == f->length - start,
              "a padded block is not kept, nor what stands behind it");
}

/* The calls that pack into a file do not look at the blocks that are there. */
static void lives_on(exam_file *f, size_t place)
{
    const size_t room = 3 * (12 + WORST(WORDS_IN_A_FILE)), bench = WORST(WORDS_IN_A_FILE);
    const coil_record list[2] = { { slot_of(20), 0, 3 }, { slot_of(21), 1, WORDS_IN_A_FILE - 1 } };
    const table_sizes tables = tables_of(f->t);
    make_words((kind_of_words)random_below(KINDS), words, WORDS_IN_A_FILE);
    outcome stored = compare_append(lend_with_spare(f, room), slot_of(10), words, 5, tables, bench);
    must_answer(stored, 0);
    take_over(f, stored);
    stored = compare_append_all(lend_with_spare(f, room), list, 2, words, WORDS_IN_A_FILE, tables, bench);
    must_answer(stored, 0);
    take_over_list(f, stored);
    is_refused_alone(f, place);
    stored = compare_replace(lend_with_spare(f, room), slot_of(10), words, 1, tables, bench);
    must_answer(stored, 0);
    take_over_replaced(f, stored);
    is_refused_alone(f, place);
    stored = compare_replace(lend_with_spare(f, room), slot_of(place), words, WORDS_IN_A_FILE, tables, bench);
    must_answer(stored, 0);
    take_over_replaced(f, stored);
    is_refused_alone(f, f->entries);
}

static void every_place_in_a_file(uint32_t t)
{
    for (size_t entries = 1; entries <= MOST_IN_A_FILE; entries++) {
        for (size_t place = 0; place < entries; place++) {
            exam_file f = file_with_a_padded_block(entries, place, t);
            this_case_is("a file of %zu entries, t = %u, block %zu is padded", entries, t, place);
            is_refused_alone(&f, place);
            order_of_fetch(&f, place);
            salvage_ends_at(&f, place);
            lives_on(&f, place);
            forget_exam_file(&f);
        }
    }
}

void group_padded(unsigned rounds)
{
    every_code_and_place();
    a_zero_before_low_bits_7();
    a_code_byte_of_0();
    for (unsigned round = 0; round < rounds; round++) {
        every_place_of_a_long_block(MOST - 2 * round % MOST);
        every_place_of_a_long_block(MOST - 1 - 2 * round % MOST);
        every_place_in_a_file(round % 16);
    }
    every_kind_and_t("a packed block, padded", rounds, words, MOST, packed_and_padded);
}
