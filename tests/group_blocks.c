/* Blocks: every kind of words with every t, every room, every size of table. */
#include "groups.h"
#include "inputs.h"
#include "words.h"

#include <string.h>

#define MOST 500

static uint64_t words[MOST];
static uint8_t block[WORST(MOST)];

/* Packs, keeps the block, and says its length. */
static size_t pack_and_keep(size_t count, uint32_t t)
{
    outcome packed = compare_pack(words, count, tables_of(t), WORST(count));
    must_answer(packed, 0);
    memcpy(block, packed.bytes, packed.first);
    return packed.first;
}

static void there_and_back(size_t count, uint32_t t)
{
    size_t length = pack_and_keep(count, t);
    must_answer(compare_check(block, length), 0);
    outcome unpacked = compare_unpack(block, length, tables_of(t), count);
    must_answer(unpacked, 0);
    must_hold(unpacked.first == count && memcmp(unpacked.words, words, 8 * count) == 0,
              "unpacking gives the packed words");
}

static void other_rooms(size_t count, uint32_t t)
{
    size_t length = pack_and_keep(count, t);
    must_answer(compare_pack(words, count, tables_of(t), WORST(count) + 1 + random_below(50)), 0);
    must_answer(compare_pack(words, count, tables_of(t), WORST(count) - 1), 3);
    must_answer(compare_unpack(block, length, tables_of(t), count + 1 + random_below(20)), 0);
    if (count > 0) {
        must_answer(compare_unpack(block, length, tables_of(t), count - 1), 3);
    }
    compare_unpack(block, length, tables_of((uint32_t)random_below(17)), count);
}

static void try_rooms(size_t count, uint32_t t, unsigned round)
{
    there_and_back(count, t);
    if (round % 4 == 0) {
        other_rooms(count, t);
    }
}

static void every_short_count(void)
{
    for (size_t count = 0; count <= 40; count++) {
        for (unsigned kind = 0; kind < KINDS; kind++) {
            uint32_t t = (uint32_t)random_below(12);
            this_case_is("%s, t = %u, %zu words", kind_names[kind], t, count);
            make_words((kind_of_words)kind, words, count);
            there_and_back(count, t);
        }
    }
}

static void every_room(void)
{
    for (size_t count = 0; count <= 6; count++) {
        make_words(FCM_WIDTHS, words, count);
        size_t length = pack_and_keep(count, 3);
        for (size_t room = 0; room <= WORST(count) + 2; room++) {
            this_case_is("pack %zu words into %zu bytes", count, room);
            must_answer(compare_pack(words, count, tables_of(3), room), room < WORST(count) ? 3 : 0);
        }
        for (size_t room = 0; room <= count + 2; room++) {
            this_case_is("unpack %zu words into room for %zu", count, room);
            must_answer(compare_unpack(block, length, tables_of(3), room), room < count ? 3 : 0);
        }
    }
}

static const size_t sizes[] = {
    0, 1, 2, 3, 4, 5, 6, 7, 8, 9, 12, 15, 16, 17, 24, 31, 32, 33, 63, 64, 65, 127, 128, 129, 256, 512,
    1000, 1023, 1024, 1025, 2048, 4096, 8192, 16384, 32767, 32768, 32769, 65535, 65536, 65537, 131072
};
#define SIZES (sizeof sizes / sizeof sizes[0])

static bool is_a_table_size(size_t size)
{
    return size >= 1 && size <= 65536 && (size & (size - 1)) == 0;
}

/* All pairs of small sizes; of large sizes, where a comparison takes long, equal and next ones. */
static void every_table_size(void)
{
    make_words(RUNS, words, 5);
    size_t length = pack_and_keep(5, 4);
    for (size_t i = 0; i < SIZES; i++) {
        for (size_t k = 0; k < SIZES; k++) {
            bool near = i == k || i == k + 1 || i + 1 == k;
            if (!near && (sizes[i] > 130 || sizes[k] > 130)) {
                continue;
            }
            table_sizes tables = { sizes[i], sizes[k] };
            uint32_t expected = i == k && is_a_table_size(sizes[i]) ? 0 : 1;
            this_case_is("tables of %zu and %zu words", sizes[i], sizes[k]);
            must_answer(compare_pack(words, 5, tables, WORST(5)), expected);
            must_answer(compare_unpack(block, length, tables, 5), expected);
        }
    }
}

/* Blocks that can be read and that the packer would not write: any code, any residual bytes. Padded ones are refused. */
static void is_read(size_t length, size_t count, uint32_t t)
{
    must_answer(compare_check(block, length), 0);
    must_answer(compare_unpack(block, length, tables_of(t), count + random_below(3)), 0);
}

static void is_refused(size_t length, size_t count, uint32_t t)
{
    must_answer(compare_check(block, length), 13);
    must_answer(compare_unpack(block, length, tables_of(t), count + random_below(3)), 13);
}

void group_blocks(unsigned rounds)
{
    every_kind_and_t("a block", rounds, words, MOST, try_rooms);
    every_short_count();
    every_room();
    every_table_size();
    every_forged_block("a forged block", rounds, block, is_read);
    every_padded_block("a forged block, padded", rounds, block, is_refused);
}
