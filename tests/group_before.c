/* Blocks and files packed before request L2, when whole zero bytes were compared: checked, unpacked and fetched as
 * ever, and as long as today's. A file that has some of both is appended to and replaced in. */
#include "groups.h"
#include "inputs.h"
#include "reference.h"
#include "words.h"

#include <string.h>

#define MOST 500
#define MAPS 5

static uint64_t words[MOST];
static uint8_t before[WORST(MOST)];
static uint64_t maps[MAPS][MOST];
static size_t counts[MAPS];
static unsigned other_bytes;    /* blocks that have other bytes than today's */

/* Packs the words as before, and says how long the block is. */
static size_t pack_before(const uint64_t *from, size_t count, uint32_t t)
{
    static uint64_t fcm[65536], dfcm[65536];
    return ref_pack_before(from, count, fcm, dfcm, (size_t)1 << t, before);
}

static void there_and_back(size_t count, uint32_t t, unsigned round)
{
    (void)round;
    size_t length = pack_before(words, count, t);
    outcome packed = compare_pack(words, count, tables_of(t), WORST(count));
    must_answer(packed, 0);
    must_hold(packed.first == length, "a block is as long as it was before");
    other_bytes += memcmp(packed.bytes, before, length) != 0;
    must_answer(compare_check(before, length), 0);
    outcome unpacked = compare_unpack(before, length, tables_of(t), count);
    must_answer(unpacked, 0);
    must_hold(unpacked.first == count && memcmp(unpacked.words, words, 8 * count) == 0,
              "a block that was packed before gives its words");
}

/* ---- Files ---- */

static void every_map_is_fetched(const exam_file *f)
{
    for (uint32_t slot = 0; slot < f->entries; slot++) {
        outcome fetched = compare_fetch(lend_with_spare(f, 0), slot, tables_of(f->t), counts[slot]);
        must_answer(fetched, 0);
        must_hold(fetched.first == counts[slot] && memcmp(fetched.words, maps[slot], 8 * counts[slot]) == 0,
                  "each map is fetched, whether it was packed before or today");
    }
}

static void make_map(uint32_t slot)
{
    counts[slot] = random_below(MOST + 1);
    make_words((kind_of_words)random_below(KINDS), maps[slot], counts[slot]);
}

/* A file of maps packed before, put together here byte by byte. The last slot is left to append. */
static exam_file file_of_before(uint32_t t)
{
    exam_file f = new_exam_file(32 + MAPS * (12 + WORST(MOST)), 1 + random_below(1000), t);
    for (uint32_t slot = 0; slot + 1 < MAPS; slot++) {
        make_map(slot);
        add_block(&f, slot, before, pack_before(maps[slot], counts[slot], t));
    }
    return f;
}

static void lives_on(uint32_t t)
{
    exam_file f = file_of_before(t);
    size_t room = 12 + WORST(MOST);
    must_answer(compare_open(lend_with_spare(&f, 0)), 0);
    every_map_is_fetched(&f);
    make_map(MAPS - 1);
    outcome appended = compare_append(lend_with_spare(&f, room), MAPS - 1, maps[MAPS - 1], counts[MAPS - 1],
                                      tables_of(t), WORST(MOST));
    must_answer(appended, 0);
    take_over(&f, appended);
    every_map_is_fetched(&f);
    uint32_t slot = (uint32_t)random_below(MAPS - 1);
    make_map(slot);
    outcome replaced = compare_replace(lend_with_spare(&f, room), slot, maps[slot], counts[slot], tables_of(t),
                                       WORST(MOST));
    must_answer(replaced, 0);
    take_over_replaced(&f, replaced);
    every_map_is_fetched(&f);
    forget_exam_file(&f);
}

void group_before(unsigned rounds)
{
    other_bytes = 0;
    every_kind_and_t("a block packed before", rounds, words, MOST, there_and_back);
    must_hold(other_bytes > 0, "the two rules give other bytes somewhere");
    for (unsigned round = 0; round < 4 * rounds; round++) {
        uint32_t t = (uint32_t)random_below(17);
        this_case_is("a file packed before, t = %u, round %u", t, round);
        lives_on(t);
    }
}
