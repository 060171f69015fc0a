/* Replacing: lives of files, every size and place of a block, every distance that the rest moves by, blocks of any
 * bytes, every room. What must come out is put together here, entry by entry, and made afresh by the library. */
#include "coil.h"
#include "groups.h"
#include "inputs.h"
#include "words.h"

#include <string.h>

#define MOST 500
#define MOST_MAPS 6
#define MOST_BLOCK 3000
#define ROOM_FOR_ALL COIL_FILE_ROOM(MOST_MAPS, MOST)

/* The maps that the file must hold now, in its order; the words of the next call; what packing leaves of them. */
static struct {
    uint32_t slot;
    size_t count;
    uint64_t words[MOST];
} maps[MOST_MAPS];
static uint64_t words[MOST];
static uint8_t block[WORST(MOST)];
static uint64_t packed_fcm[65536], packed_dfcm[65536];

static uint32_t slot_of(const exam_file *f, size_t index)
{
    return (uint32_t)get_field(entry_of(f, index) + AT_SLOT, 4);
}

static size_t size_of(const exam_file *f, size_t index)
{
    return get_field(entry_of(f, index) + AT_BLOCK_LENGTH, 4);
}

static size_t pack_and_keep(size_t count, uint32_t t)
{
    outcome packed = compare_pack(words, count, tables_of(t), WORST(count));
    must_answer(packed, 0);
    memcpy(block, packed.bytes, packed.first);
    memcpy(packed_fcm, packed.fcm, (size_t)8 << t);
    memcpy(packed_dfcm, packed.dfcm, (size_t)8 << t);
    return packed.first;
}

/* ---- One replace, and what the rules say of it ---- */

/* The file that the rules ask for: the slots and blocks as found, with one block exchanged. */
static exam_file with_another_block(const exam_file *f, size_t index, const uint8_t *other, size_t other_len)
{
    exam_file made = new_exam_file(f->length + other_len, f->exam, f->t);
    for (size_t i = 0; i < f->entries; i++) {
        const uint8_t *found = f->bytes + get_field(entry_of(f, i) + AT_OFFSET, 4);
        bool is_other = i == index;
        add_block(&made, slot_of(f, i), is_other ? other : found, is_other ? other_len : size_of(f, i));
    }
    return made;
}

static size_t room_at_worst(const exam_file *f, size_t index, size_t count)
{
    return f->length - size_of(f, index) + WORST(count);
}

/* Just enough room, and some to spare. A buffer is never shorter than its file. */
static lent_file lend_to_replace(const exam_file *f, size_t index, size_t count, size_t spare)
{
    lent_file lending = lend_with_spare(f, spare);
    size_t at_worst = room_at_worst(f, index, count);
    lending.buffer += at_worst > f->length ? at_worst - f->length : 0;
    return lending;
}

/* Replaces the words of an entry by the next words, and takes the file over. */
static void replace_entry(exam_file *f, size_t index, size_t count, size_t spare)
{
    size_t size = pack_and_keep(count, f->t);
    exam_file expected = with_another_block(f, index, block, size);
    outcome replaced = compare_replace(lend_to_replace(f, index, count, spare), slot_of(f, index), words, count,
                                       tables_of(f->t), WORST(count) + spare);
    must_answer(replaced, 0);
    must_hold(replaced.first == f->length - size_of(f, index) + size, "the old block goes, and the new one comes");
    must_hold(replaced.first == expected.length
              && memcmp(replaced.bytes, expected.bytes, expected.length) == 0,
              "one block is exchanged, and all else is as found");
    must_hold(memcmp(replaced.bench, block, size) == 0, "the bench holds the new block");
    must_hold(memcmp(replaced.fcm, packed_fcm, (size_t)8 << f->t) == 0
              && memcmp(replaced.dfcm, packed_dfcm, (size_t)8 << f->t) == 0, "the tables are as packing leaves them");
    take_over_replaced(f, replaced);
    forget_exam_file(&expected);
}

/* The library alone makes the file afresh from the list of maps: the same bytes. */
static void is_made_afresh(const exam_file *f)
{
    static uint8_t made[ROOM_FOR_ALL], bench[WORST(MOST)];
    static uint64_t fcm[65536], dfcm[65536];
    size_t table = (size_t)1 << f->t, length = 0;
    uint32_t answer = coil_create(made, sizeof made, f->exam, f->t, &length);
    for (size_t i = 0; i < f->entries && answer == 0; i++) {
        answer = coil_append(made, sizeof made, length, f->exam, maps[i].slot, maps[i].words, maps[i].count,
                             fcm, table, dfcm, table, bench, sizeof bench, &length);
    }
    count_comparison("replace, against the file made afresh",
                     answer == 0 && length == f->length && memcmp(made, f->bytes, length) == 0);
}

static void every_slot_is_fetched(const exam_file *f)
{
    for (size_t i = 0; i < f->entries; i++) {
        outcome fetched = compare_fetch(lend_with_spare(f, 0), maps[i].slot, tables_of(f->t), maps[i].count);
        must_answer(fetched, 0);
        must_hold(fetched.first == maps[i].count
                  && memcmp(fetched.words, maps[i].words, 8 * maps[i].count) == 0,
                  "after a replace every slot gives its words, the replaced one the new ones");
    }
}

static void keep_words(size_t index, size_t count)
{
    maps[index].count = count;
    memcpy(maps[index].words, words, 8 * count);
}

static void replace_map(exam_file *f, size_t index, size_t count, size_t spare)
{
    replace_entry(f, index, count, spare);
    keep_words(index, count);
    is_made_afresh(f);
    every_slot_is_fetched(f);
}

/* ---- Lives ---- */

static exam_file created_file(uint32_t t)
{
    exam_file f = new_exam_file(ROOM_FOR_ALL, 1 + random_word() % UINT64_MAX, t);
    outcome created = compare_create(32 + random_below(20), f.exam, t);
    must_answer(created, 0);
    memcpy(f.bytes, created.bytes, 32);
    return f;
}

static size_t make_some_words(void)
{
    size_t count = random_below(3) == 0 ? random_below(4) : random_below(MOST + 1);
    make_words((kind_of_words)random_below(KINDS), words, count);
    return count;
}

static void append_map(exam_file *f, size_t count)
{
    size_t index = f->entries;
    uint32_t step = (uint32_t)(random_below(2) ? 1 : 1 + random_below(700000000));
    maps[index].slot = index == 0 ? (uint32_t)random_below(3) : maps[index - 1].slot + step;
    outcome appended = compare_append(lend_with_spare(f, 12 + WORST(count)), maps[index].slot, words, count,
                                      tables_of(f->t), WORST(count));
    must_answer(appended, 0);
    take_over(f, appended);
    keep_words(index, count);
}

static void refused_replaces(const exam_file *f, size_t index, size_t count)
{
    lent_file lending = lend_to_replace(f, index, count, 9);
    table_sizes tables = tables_of(f->t), other = tables_of(f->t == 16 ? 15 : f->t + 1);
    uint32_t slot = maps[index].slot, last = maps[f->entries - 1].slot;
    must_answer(compare_replace(lending, last + 1, words, count, tables, WORST(count)), 10);
    must_answer(compare_replace(lending, slot, words, count, other, WORST(count)), 1);
    other.fcm = tables.fcm;
    must_answer(compare_replace(lending, slot, words, count, other, WORST(count)), 1);
    must_answer(compare_replace(lending, slot, words, count, tables, WORST(count) - 1), 3);
    lending.exam ^= (uint64_t)1 << random_below(64);
    must_answer(compare_replace(lending, slot, words, count, tables, WORST(count)), 8);
}

/* Appends and replaces in any order, and every fourth time a replace, so that no t is left out. Tables of 2^13 words
 * and more take longer, so those lives are shorter. */
static void life(uint32_t t, unsigned round)
{
    exam_file f = created_file(t);
    for (size_t step = 0; step < (t > 12 ? 6 : 16); step++) {
        size_t count = make_some_words();
        bool may_append = f.entries < MOST_MAPS && step % 4 != 3;
        if (f.entries == 0 || (may_append && random_below(3) == 0)) {
            this_case_is("append %zu words after %zu entries, t = %u, round %u", count, f.entries, t, round);
            append_map(&f, count);
            continue;
        }
        size_t index = random_below(f.entries);
        this_case_is("replace entry %zu of %zu by %zu words, t = %u, round %u, step %zu", index, f.entries,
                     count, t, round, step);
        must_hold(room_at_worst(&f, index, count) <= ROOM_FOR_ALL, "COIL_FILE_ROOM is enough for every replace");
        if (step % 3 == 0) {
            refused_replaces(&f, index, count);
        }
        replace_map(&f, index, count, random_below(2) * random_below(50));
    }
    forget_exam_file(&f);
}

/* ---- Every size and place ---- */

/* Blocks of 8, 9, 10, 11, 11 and 14 bytes; of 17 or 25, by t; and long ones, the first two mostly of one length. */
#define LISTS 10
static size_t make_list(unsigned which)
{
    static const struct {
        size_t count;
        uint64_t words[3];
    } lists[7] = {
        { 0, { 0 } }, { 1, { 0 } }, { 1, { 1 } }, { 3, { 1, 2, 3 } }, { 2, { 1, 3 } }, { 1, { 0x80000000 } },
        { 2, { UINT64_MAX, 0 } }
    };
    if (which < 7) {
        memcpy(words, lists[which].words, sizeof lists[which].words);
        return lists[which].count;
    }
    size_t count = which < 9 ? 6 : 30;
    make_words(NOISE, words, count);
    return count;
}

static exam_file file_of_lists(uint32_t t, size_t entries, size_t index, unsigned which)
{
    exam_file f = new_exam_file(ROOM_FOR_ALL, 1 + random_below(1000), t);
    for (size_t i = 0; i < entries; i++) {
        size_t count = make_list(i == index ? which : (unsigned)random_below(LISTS));
        maps[i].slot = (uint32_t)(7 * i);
        keep_words(i, count);
        add_block(&f, maps[i].slot, block, pack_and_keep(count, t));
    }
    return f;
}

/* The only entry, the first, the last and the one between; by more bytes, by fewer, by as many; by no words, by one
 * more, by the same again. */
static void every_size_and_place(size_t entries, size_t index)
{
    for (unsigned before = 0; before < LISTS; before++) {
        for (unsigned after = 0; after < LISTS; after++) {
            uint32_t t = (uint32_t)random_below(12);
            exam_file f = file_of_lists(t, entries, index, before);
            size_t count = make_list(after);
            this_case_is("entry %zu of %zu: list %u replaced by list %u, t = %u", index, entries, before, after, t);
            replace_map(&f, index, count, random_below(3));
            forget_exam_file(&f);
        }
    }
}

/* ---- Blocks of any bytes ---- */

static void add_any_bytes(exam_file *f, size_t size)
{
    static uint8_t any[MOST_BLOCK];
    uint32_t slot = f->entries == 0 ? 0 : slot_of(f, f->entries - 1) + 1 + (uint32_t)random_below(5);
    random_bytes(any, size);
    add_block(f, slot, any, size);
}

/* What stands behind the block is moved down and up by every distance, less and more than its own length. */
static void every_distance(void)
{
    for (size_t size = 8; size <= 600; size++) {
        for (unsigned up = 0; up < 2; up++) {
            exam_file f = new_exam_file(4096, 8, (uint32_t)(size % 5));
            add_any_bytes(&f, 8 + random_below(40));
            add_any_bytes(&f, size);
            add_any_bytes(&f, 8 + random_below(700));
            size_t count = up ? 70 : 1;
            make_words(up ? NOISE : ZEROS, words, count);
            this_case_is("a block of %zu bytes replaced by %zu words", size, count);
            replace_entry(&f, 1, count, 0);
            forget_exam_file(&f);
        }
    }
}

/* No block need be well formed, neither those that stay nor the one that goes. */
static void blocks_of_any_bytes(unsigned rounds)
{
    for (unsigned round = 0; round < 40 * rounds; round++) {
        exam_file f = new_exam_file(32 + 5 * (12 + MOST_BLOCK) + WORST(MOST), 1 + random_below(9), round % 9);
        size_t entries = 1 + random_below(5);
        while (f.entries < entries) {
            add_any_bytes(&f, 8 + random_below(random_below(2) ? 30 : MOST_BLOCK - 7));
        }
        size_t count = make_some_words(), index = random_below(entries);
        this_case_is("blocks of any bytes: entry %zu of %zu replaced by %zu words, round %u", index, entries,
                     count, round);
        replace_entry(&f, index, count, random_below(40));
        outcome fetched = compare_fetch(lend_with_spare(&f, 0), slot_of(&f, index), tables_of(f.t), count);
        must_answer(fetched, 0);
        must_hold(fetched.first == count && memcmp(fetched.words, words, 8 * count) == 0,
                  "the replaced slot gives the new words");
        forget_exam_file(&f);
    }
}

/* ---- Rooms and slots ---- */

/* The buffer from two bytes less than the file to more than enough; the bench from none to more than enough. */
static void every_room(size_t old_size, size_t count)
{
    exam_file f = new_exam_file(500, 3, 2);
    add_any_bytes(&f, old_size);
    add_any_bytes(&f, 20);
    size_t at_worst = room_at_worst(&f, 0, count);
    size_t most = (at_worst > f.length ? at_worst : f.length) + 2;
    make_words(NOISE, words, count);
    for (size_t buffer = f.length - 2; buffer <= most; buffer++) {
        lent_file lending = lend_with_spare(&f, 0);
        lending.buffer = buffer;
        this_case_is("a block of %zu bytes replaced by %zu words in a buffer of %zu", old_size, count, buffer);
        must_answer(compare_replace(lending, 0, words, count, tables_of(2), WORST(count)),
                    buffer < f.length ? 4 : buffer < at_worst ? 3 : 0);
    }
    for (size_t bench = 0; bench <= WORST(count) + 2; bench++) {
        this_case_is("a block of %zu bytes replaced by %zu words with a bench of %zu", old_size, count, bench);
        must_answer(compare_replace(lend_to_replace(&f, 0, count, 0), 0, words, count, tables_of(2), bench),
                    bench < WORST(count) ? 3 : 0);
    }
    forget_exam_file(&f);
}

static void every_room_of_some_sizes(void)
{
    static const size_t old_sizes[] = { 8, 17, 25, 26, 100 };
    for (size_t i = 0; i < sizeof old_sizes / sizeof old_sizes[0]; i++) {
        for (size_t count = 0; count <= 4; count++) {
            every_room(old_sizes[i], count);
        }
    }
}

/* Beside those that are there, below and above all, and equal in their low bytes. */
static void slots_that_are_not_there(void)
{
    static const uint32_t there[] = { 5, 300, 65536, UINT32_MAX };
    static const uint32_t missing[] = {
        0, 4, 6, 44, 261, 299, 301, 65535, 65537, 65541, 65836, 131072, UINT32_MAX - 1, UINT32_MAX - 65535
    };
    exam_file f = new_exam_file(500, 3, 2);
    make_words(NOISE, words, 2);
    for (size_t i = 0; i <= sizeof there / sizeof there[0]; i++) {
        for (size_t k = 0; k < sizeof missing / sizeof missing[0]; k++) {
            this_case_is("slot %u is not there, of %zu entries", missing[k], i);
            must_answer(compare_replace(lend_with_spare(&f, 40), missing[k], words, 2, tables_of(2), WORST(2)),
                        10);
        }
        if (i < sizeof there / sizeof there[0]) {
            add_block(&f, there[i], block, pack_and_keep(2, 2));
            this_case_is("slot %u is there", there[i]);
            replace_entry(&f, i, 2, 0);
        }
    }
    forget_exam_file(&f);
}

void group_replace(unsigned rounds)
{
    for (unsigned round = 0; round < rounds; round++) {
        for (uint32_t t = 0; t <= 16; t++) {
            life(t, round);
        }
    }
    for (size_t entries = 1; entries <= 3; entries++) {
        for (size_t index = 0; index < entries; index++) {
            every_size_and_place(entries, index);
        }
    }
    every_distance();
    blocks_of_any_bytes(rounds);
    every_room_of_some_sizes();
    slots_that_are_not_there();
}
