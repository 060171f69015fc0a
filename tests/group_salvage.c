/* Salvaging: every cut of files that the library made, files with other bytes behind them, every bit and byte changed,
 * a wrong block at each place of a row, any bytes, 1,024 blocks and more, every room. Which blocks must be kept is
 * known by how the old bytes were made, and by the library's own check of each; the new file is put together here,
 * entry by entry, and made afresh by the library. */
#include "coil.h"
#include "groups.h"
#include "inputs.h"
#include "reference.h"
#include "words.h"

#include <string.h>

#define MOST_ENTRIES 1024
#define MOST_OLD 262144
#define MOST_NEW (MOST_OLD + 12 * MOST_ENTRIES + 32)

/* The old bytes of the next call. */
static uint8_t old[MOST_OLD];
static size_t old_len;

static const uint8_t no_words[8] = { 0, 0, 0, 0, 8, 0, 0, 0 };

static uint64_t any_exam(void)
{
    return 1 + random_word() % UINT64_MAX;
}

static uint32_t any_t(void)
{
    return (uint32_t)random_below(17);
}

/* ---- Rows of blocks ---- */

static void add_bytes(const uint8_t *bytes, size_t count)
{
    memcpy(old + old_len, bytes, count);
    old_len += count;
}

static void add_random_bytes(size_t count)
{
    random_bytes(old + old_len, count);
    old_len += count;
}

/* A block of at most 9 words, whole, and mostly none that a packer writes. */
static void add_good_block(void)
{
    static uint8_t block[WORST(9)];
    add_bytes(block, forge_block(block, random_below(10)));
}

/* As it is packed, or as it was before request L2. */
static void add_packed_block(void)
{
    static uint64_t words[40], fcm[256], dfcm[256];
    size_t count = random_below(41), table = (size_t)1 << random_below(9), size = 0;
    make_words((kind_of_words)random_below(KINDS), words, count);
    if (random_below(2)) {
        size = ref_pack_before(words, count, fcm, dfcm, table, old + old_len);
    } else {
        must_hold(coil_pack(words, count, fcm, table, dfcm, table, old + old_len, WORST(count), &size) == COIL_DONE,
                  "the library packs a block to salvage");
    }
    old_len += size;
}

/* Words that are predicted: each code is 7, and so is the filler. No residual byte follows, so that the count gives the
 * length. */
static void add_predicted_block(size_t count)
{
    size_t size = 8 + (count + 1) / 2;
    memset(old + old_len, 0x77, size);
    put_field(old + old_len, 4, count);
    put_field(old + old_len + 4, 4, size);
    old_len += size;
}

static size_t bytes_of_the_first(size_t blocks)
{
    size_t at = 0;
    for (; blocks > 0; blocks--) {
        at += get_field(old + at + 4, 4);
    }
    return at;
}

/* How many blocks stand whole at the start, one behind the other: by the library's own check of each. */
static size_t whole_blocks(void)
{
    size_t blocks = 0, at = 0;
    while (blocks < MOST_ENTRIES && old_len - at >= 8) {
        size_t size = get_field(old + at + 4, 4);
        if (size > old_len - at || coil_check(old + at, size) != COIL_DONE) {
            break;
        }
        at += size;
        blocks++;
    }
    return blocks;
}

/* ---- One salvage, and what the rules say of it ---- */

/* The file that the rules ask for, written without the library. */
static exam_file with_the_first(size_t blocks, uint64_t exam, uint32_t t)
{
    exam_file f = new_exam_file(bytes_of_the_first(blocks) + 12 * blocks + 32, exam, t);
    const uint8_t *at = old;
    while (f.entries < blocks) {
        size_t size = get_field(at + 4, 4);
        add_block(&f, (uint32_t)f.entries, at, size);
        at += size;
    }
    return f;
}

/* Salvages the old bytes in just enough room and some to spare: so many blocks must be kept. */
static outcome keeps(size_t kept, size_t spare, uint64_t exam, uint32_t t)
{
    exam_file expected = with_the_first(kept, exam, t);
    outcome result = compare_salvage(old, old_len, expected.length + spare, exam, t);
    must_answer(result, 0);
    must_hold(whole_blocks() == kept, "check takes each block that is kept, and not the next");
    must_hold(result.second == kept, "as many blocks are kept as the rules say");
    must_hold(result.left_over == old_len - bytes_of_the_first(kept), "all behind the kept blocks is left over");
    must_hold(result.first == expected.length && memcmp(result.bytes, expected.bytes, expected.length) == 0,
              "the new file has the blocks as they stood, under the slots 0, 1, 2 and so on");
    must_hold(result.renumbered == 1, "the slots are renumbered, even where there is none");
    must_hold(result.first <= COIL_SALVAGE_ROOM(old_len), "COIL_SALVAGE_ROOM is always enough");
    forget_exam_file(&expected);
    return result;
}

/* Whatever bytes they are. */
static outcome keeps_what_is_whole(void)
{
    return keeps(whole_blocks(), random_below(2) * random_below(30), any_exam(), any_t());
}

/* The new file, kept for further calls. It opens for the exam that was given, and for no other; and the salvage of it
 * is the same file once more. */
static lent_file is_a_file(outcome salvaged, uint64_t exam, uint32_t t)
{
    static uint8_t made[MOST_NEW];
    const size_t length = salvaged.first, kept = salvaged.second;
    lent_file file = { made, length, length, length, exam };
    memcpy(made, salvaged.bytes, length);
    must_answer(compare_open(file), 0);
    file.exam ^= (uint64_t)1 << random_below(64);
    must_answer(compare_open(file), 8);
    file.exam = exam;
    outcome again = compare_salvage(made, length, length, exam, t);
    must_answer(again, 0);
    must_hold(again.first == length && memcmp(again.bytes, made, length) == 0, "salvaged again it is the same file");
    must_hold(again.second == kept && again.left_over == 12 * kept + 32,
              "of a file all blocks are kept, and directory and trailer are left over");
    return file;
}

/* ---- Every cut of a file that the library made ---- */

#define MOST_MAPS 5
#define MOST_WORDS 20

/* The maps of the file, and where the block of each ends. */
static struct {
    uint32_t slot;
    size_t count;
    uint64_t words[MOST_WORDS];
    size_t end;
} maps[MOST_MAPS];

/* A file in the hands of the library alone. */
typedef struct {
    uint8_t bytes[COIL_FILE_ROOM(MOST_MAPS, MOST_WORDS)];
    size_t length;
    uint64_t exam;
    uint32_t t;
} library_file;

/* A call that packs words into a file: append or replace. */
typedef uint32_t store_call(uint8_t *, size_t, size_t, uint64_t, uint32_t, const uint64_t *, size_t,
                            uint64_t *, size_t, uint64_t *, size_t, uint8_t *, size_t, size_t *);

static void is_done(uint32_t answer)
{
    must_hold(answer == COIL_DONE, "the library makes a file to cut");
}

static void create(library_file *f, uint64_t exam, uint32_t t)
{
    f->exam = exam;
    f->t = t;
    is_done(coil_create(f->bytes, sizeof f->bytes, exam, t, &f->length));
}

static void store(library_file *f, store_call *call, uint32_t slot, const uint64_t *words, size_t count)
{
    static uint64_t fcm[65536], dfcm[65536];
    static uint8_t bench[WORST(MOST_WORDS)];
    size_t table = (size_t)1 << f->t, new_length = 0;
    is_done(call(f->bytes, sizeof f->bytes, f->length, f->exam, slot, words, count, fcm, table, dfcm, table,
                 bench, sizeof bench, &new_length));
    f->length = new_length;
}

/* Under slots that are not 0, 1, 2. Every second map comes to its words by a replace, once all are in the file. */
static void make_maps(library_file *f, size_t entries, unsigned round)
{
    static const size_t counts[] = { 0, 1, MOST_WORDS, 3, 8 };
    uint32_t slot = 1 + (uint32_t)random_below(9);
    for (size_t i = 0; i < entries; i++) {
        size_t count = counts[(i + round) % 5];
        make_words((kind_of_words)random_below(KINDS), maps[i].words, count);
        maps[i].slot = slot;
        maps[i].count = count;
        store(f, coil_append, slot, maps[i].words, i % 2 == round % 2 ? count : count / 2);
        slot += 1 + (uint32_t)random_below(random_below(2) ? 3 : 700000000);
    }
    for (size_t i = (round + 1) % 2; i < entries; i += 2) {
        store(f, coil_replace, maps[i].slot, maps[i].words, maps[i].count);
    }
    for (size_t i = 0; i < entries; i++) {
        size_t offset = 0, size = 0;
        is_done(coil_find(f->bytes, sizeof f->bytes, f->length, f->exam, maps[i].slot, &offset, &size));
        maps[i].end = offset + size;
    }
}

static void gives_the_first(size_t kept, lent_file file, uint32_t t)
{
    for (size_t i = 0; i < kept; i++) {
        outcome fetched = compare_fetch(file, (uint32_t)i, tables_of(t), maps[i].count);
        must_answer(fetched, 0);
        must_hold(fetched.first == maps[i].count && memcmp(fetched.words, maps[i].words, 8 * maps[i].count) == 0,
                  "each map that was kept gives its words, under its new slot");
    }
    must_answer(compare_fetch(file, (uint32_t)kept, tables_of(t), MOST_WORDS), 10);
}

/* Just the maps whose blocks end before the cut are kept. The library makes the new file afresh from their words: the
 * same bytes. */
static void every_cut(uint32_t t, size_t entries, unsigned round)
{
    static library_file whole, afresh;
    size_t kept = 0;
    create(&whole, any_exam(), t);
    make_maps(&whole, entries, round);
    create(&afresh, round % 2 ? whole.exam : any_exam(), t);
    memcpy(old, whole.bytes, whole.length);
    for (old_len = 0; old_len <= whole.length; old_len++) {
        bool one_more = kept < entries && maps[kept].end == old_len, intact = old_len == whole.length;
        this_case_is("a file of %zu maps, %zu bytes, cut to %zu, t = %u, round %u", entries, whole.length, old_len, t,
                     round);
        if (one_more) {
            store(&afresh, coil_append, (uint32_t)kept, maps[kept].words, maps[kept].count);
            kept++;
        }
        outcome result = keeps(kept, random_below(2) * random_below(30), afresh.exam, t);
        count_comparison("salvage, against the file made afresh", result.first == afresh.length
                         && memcmp(result.bytes, afresh.bytes, afresh.length) == 0);
        must_hold(result.first <= whole.length, "a buffer as long as the file was is enough");
        must_hold(!intact || (kept == entries && result.left_over == 12 * entries + 32),
                  "of an intact file directory and trailer are left over");
        if (one_more || intact || old_len == 0) {
            gives_the_first(kept, is_a_file(result, afresh.exam, t), t);
        }
    }
}

/* ---- Files with other bytes behind them ---- */

static void add_file(size_t entries)
{
    static uint8_t block[WORST(3)];
    exam_file f = new_exam_file(32 + entries * (12 + WORST(3)), any_exam(), any_t());
    uint32_t slot = (uint32_t)random_below(2);
    for (size_t i = 0; i < entries; i++) {
        add_block(&f, slot, block, forge_block(block, random_below(4)));
        slot += 1 + (uint32_t)random_below(3);
    }
    add_bytes(f.bytes, f.length);
    forget_exam_file(&f);
}

/* No byte, few and many; a block that would be kept if it stood before the directory; the file once more. */
static void add_tail(unsigned which)
{
    static const struct {
        size_t count;
        int byte;
    } tails[] = { { 0, 0 }, { 1, 0 }, { 7, 0xFF }, { 8, 0 }, { 100, 0 }, { 100, 0xFF } };
    size_t file_len = old_len;
    if (which < 6) {
        memset(old + old_len, tails[which].byte, tails[which].count);
        old_len += tails[which].count;
    } else if (which == 6) {
        add_random_bytes(1 + random_below(300));
    } else if (which == 7) {
        add_bytes(no_words, sizeof no_words);
    } else {
        add_bytes(old, file_len);
    }
}

static void files_with_tails(void)
{
    static const size_t some_entries[] = { 0, 1, 2, 3, 40, 300, 1024 };
    for (size_t i = 0; i < sizeof some_entries / sizeof some_entries[0]; i++) {
        for (unsigned tail = 0; tail <= 8; tail++) {
            size_t entries = some_entries[i];
            uint64_t exam = any_exam();
            uint32_t t = any_t();
            old_len = 0;
            add_file(entries);
            size_t file_len = old_len;
            add_tail(tail);
            this_case_is("a file of %zu entries, and %zu bytes behind it", entries, old_len - file_len);
            outcome result = keeps(entries, random_below(9), exam, t);
            must_hold(result.left_over == 12 * entries + 32 + old_len - file_len,
                      "directory, trailer and what stands behind them are left over");
            is_a_file(result, exam, t);
        }
    }
}

/* An empty file begins with its trailer: the mark stands in the place of a count, edition and t in that of a length.
 * Where so many bytes follow that the length is within them, the count is above the most words. */
static void a_mark_that_reads_as_a_count(void)
{
    for (uint32_t t = 0; t <= 3; t++) {
        exam_file f = new_exam_file(32, any_exam(), t);
        old_len = 0;
        add_bytes(f.bytes, f.length);
        add_random_bytes(200000);
        this_case_is("an empty file with t = %u, and many bytes behind it", t);
        must_answer(compare_check(old, 1 + 65536 * t), t == 0 ? 4 : 2);
        keeps(0, 0, any_exam(), t);
        forget_exam_file(&f);
    }
}

/* ---- Damage ---- */

/* After a change of one byte: blocks that end before it are kept, whatever it is. */
static void after_a_change(const exam_file *f, size_t at)
{
    size_t before = 0;
    while (before < f->entries && get_field(entry_of(f, before) + AT_OFFSET, 4)
                                  + get_field(entry_of(f, before) + AT_BLOCK_LENGTH, 4) <= at) {
        before++;
    }
    must_hold(whole_blocks() >= before, "blocks before the change are whole");
    keeps_what_is_whole();
}

static void every_change(size_t entries)
{
    static const uint8_t values[] = { 0x00, 0x01, 0x08, 0x70, 0x77, 0xFF };
    exam_file f = small_exam_file(2, entries, 5);
    old_len = 0;
    add_bytes(f.bytes, f.length);
    for (size_t at = 0; at < old_len; at++) {
        for (unsigned change = 0; change < 8 + sizeof values; change++) {
            old[at] = change < 8 ? (uint8_t)(f.bytes[at] ^ (1u << change)) : values[change - 8];
            this_case_is("a file of %zu entries, byte %zu of %zu made %02X", entries, at, old_len, old[at]);
            after_a_change(&f, at);
        }
        old[at] = f.bytes[at];
    }
    forget_exam_file(&f);
}

/* An intact file's directory is never taken for a block. One bit of it can change that: slot 0 reads as a count of 0,
 * and an offset of 8 as the length of a block without words. */
static void a_directory_that_reads_as_a_block(void)
{
    exam_file f = new_exam_file(100, 5, 1);
    add_block(&f, 0, no_words, sizeof no_words);
    old_len = 0;
    add_bytes(f.bytes, f.length);
    this_case_is("slot 0 at offset 0");
    keeps(1, 0, 5, 1);
    old[8 + AT_OFFSET] = 8;
    this_case_is("slot 0 at offset 8");
    keeps(2, 0, 5, 1);
    forget_exam_file(&f);
}

/* A file whose one block states more bytes than its entry, and so takes the directory for its code and residual bytes:
 * two words, by the codes that the slot reads as. */
static void reaches_on(uint32_t slot, uint8_t stated, size_t kept, size_t left_over)
{
    const uint8_t block[8] = { 2, 0, 0, 0, stated, 0, 0, 0 };
    exam_file f = new_exam_file(52, 5, 1);
    add_block(&f, slot, block, sizeof block);
    old_len = 0;
    add_bytes(f.bytes, f.length);
    this_case_is("a file that opens, with a block that reaches over the directory, slot %u", slot);
    must_answer(compare_open(lend_with_spare(&f, 0)), 0);
    must_answer(compare_fetch(lend_with_spare(&f, 0), slot, tables_of(1), 2), 5);
    must_hold(keeps(kept, 0, 5, 1).left_over == left_over, "what is behind the block is left over");
    forget_exam_file(&f);
}

/* Opening does not look into a block, so a file that no call made can have one. By the codes 0 and 3 the residual bytes
 * end in the mark. By 0 and 4 they end with the directory, and the last three of them are 0: padding. */
static void a_directory_inside_a_block(void)
{
    reaches_on(3, 22, 1, 30);
    reaches_on(4, 20, 0, 52);
}

/* ---- A wrong block at each place of a row ---- */

#define MOST_PLACES 4

/* With the number by which check refuses the bytes that the block states. */
static const struct {
    const char *what;
    uint32_t number;
    size_t size;
    uint8_t bytes[14];
} wrong_blocks[] = {
    { "states no byte", 4, 9, { 1, 0, 0, 0, 0, 0, 0, 0, 0x77 } },
    { "is 8 bytes of 0", 4, 8, { 0 } },
    { "states 7 bytes", 4, 9, { 1, 0, 0, 0, 7, 0, 0, 0, 0x77 } },
    { "states 7 bytes without words", 4, 8, { 0, 0, 0, 0, 7, 0, 0, 0 } },
    { "declares 65,537 words", 2, 9, { 1, 0, 1, 0, 9, 0, 0, 0, 0x77 } },
    { "declares 2^32 - 1 words", 2, 8, { 255, 255, 255, 255, 8, 0, 0, 0 } },
    { "has a byte behind its residuals", 5, 10, { 1, 0, 0, 0, 10, 0, 0, 0, 0x77, 0 } },
    { "lacks a residual byte", 5, 9, { 1, 0, 0, 0, 9, 0, 0, 0, 0x67 } },
    { "lacks its code", 5, 8, { 1, 0, 0, 0, 8, 0, 0, 0 } },
    { "has 9 bytes without words", 5, 9, { 0, 0, 0, 0, 9, 0, 0, 0, 0x77 } },
    { "has the filler 6", 6, 9, { 1, 0, 0, 0, 9, 0, 0, 0, 0x76 } },
    { "has the filler 15", 6, 9, { 1, 0, 0, 0, 9, 0, 0, 0, 0x7F } },
    { "has the filler 0", 6, 9, { 1, 0, 0, 0, 9, 0, 0, 0, 0x70 } },
    { "has a residual byte of 0", 13, 10, { 1, 0, 0, 0, 10, 0, 0, 0, 0x67, 0 } },
    { "has its last residual padded", 13, 11, { 2, 0, 0, 0, 11, 0, 0, 0, 0x6E, 1, 0 } },
    { "has its first residual padded", 13, 11, { 2, 0, 0, 0, 11, 0, 0, 0, 0x6E, 0, 1 } },
    { "has two zero bytes on top by low bits 3", 13, 14, { 1, 0, 0, 0, 14, 0, 0, 0, 0x37, 1, 1, 1, 0, 0 } }
};

/* The block is not passed by: good ones follow, and are left over with it. Every second time there is room for them. */
static void ends_at(size_t place, size_t start)
{
    outcome result = keeps(place, random_below(2) * COIL_SALVAGE_ROOM(old_len), any_exam(), any_t());
    must_hold(result.left_over == old_len - start, "the first block that is not whole ends it");
}

/* Good blocks and a wrong one among them, and fewer bytes than a block has. Answers where the wrong one starts. */
static size_t add_row(size_t blocks, size_t place, const uint8_t *wrong, size_t size)
{
    size_t start = 0;
    old_len = 0;
    for (size_t i = 0; i < blocks; i++) {
        if (i == place) {
            start = old_len;
            add_bytes(wrong, size);
        } else {
            add_good_block();
        }
    }
    add_random_bytes(random_below(8));
    return start;
}

static void every_wrong_block(size_t blocks, size_t place)
{
    for (size_t i = 0; i < sizeof wrong_blocks / sizeof wrong_blocks[0]; i++) {
        this_case_is("block %zu of %zu %s", place, blocks, wrong_blocks[i].what);
        size_t start = add_row(blocks, place, wrong_blocks[i].bytes, wrong_blocks[i].size);
        must_answer(compare_check(old + start, get_field(old + start + 4, 4)), wrong_blocks[i].number);
        ends_at(place, start);
    }
}

/* A block that is whole but for the length that it states. */
static void every_length_beyond(size_t blocks, size_t place)
{
    static const uint8_t one[10] = { 1, 0, 0, 0, 10, 0, 0, 0, 0x67, 1 };
    size_t start = add_row(blocks, place, one, sizeof one), left = old_len - start;
    const uint64_t beyond[] = {
        left + 1, left + 2, left + 8, left + 256, left + 65536, left + (1 << 24), 0x7FFFFFFF, 0x80000000, 0x8000000A,
        0xFFFFFFF8, 0xFFFFFFFF
    };
    this_case_is("block %zu of %zu is right", place, blocks);
    keeps(blocks, 0, any_exam(), any_t());
    for (size_t i = 0; i < sizeof beyond / sizeof beyond[0]; i++) {
        put_field(old + start + 4, 4, beyond[i]);
        this_case_is("block %zu of %zu states %llu bytes, with %zu left", place, blocks,
                     (unsigned long long)beyond[i], left);
        ends_at(place, start);
    }
}

/* Whole but for its count, or whole: 65,535 to 65,537 words. Then a block whose length has more than two bytes. */
static void long_blocks(void)
{
    for (size_t count = 65535; count <= 65537; count++) {
        old_len = 0;
        add_good_block();
        add_predicted_block(count);
        add_good_block();
        this_case_is("a row with a block of %zu words", count);
        keeps(count > 65536 ? 1 : 3, 0, any_exam(), any_t());
    }
    old_len = 0;
    add_good_block();
    old_len += forge_block(old + old_len, 20000);
    add_good_block();
    this_case_is("a row with a block of 20,000 words, %zu bytes", old_len);
    must_hold(old_len > 65536 + 2 * WORST(9), "a long block");
    keeps(3, 0, any_exam(), any_t());
}

static void every_place(void)
{
    for (size_t blocks = 1; blocks <= MOST_PLACES; blocks++) {
        for (size_t place = 0; place < blocks; place++) {
            every_wrong_block(blocks, place);
            every_length_beyond(blocks, place);
        }
    }
}

/* ---- Few bytes, of any kind ---- */

#define FEW 40

/* The few values that make blocks likely. */
static void add_likely_bytes(size_t count)
{
    static const uint8_t values[] = { 0, 0, 0, 1, 8, 9, 10, 0x67, 0x77 };
    for (size_t i = 0; i < count; i++) {
        old[old_len++] = values[random_below(sizeof values)];
    }
}

static void few_bytes(unsigned rounds)
{
    for (size_t length = 0; length <= FEW; length++) {
        old_len = length;
        this_case_is("%zu bytes of 0, and of FF", length);
        memset(old, 0, length);
        keeps(0, 0, any_exam(), any_t());
        memset(old, 0xFF, length);
        keeps(0, 0, any_exam(), any_t());
        for (unsigned round = 0; round < 10 * rounds; round++) {
            this_case_is("%zu random bytes, round %u", length, round);
            old_len = 0;
            add_random_bytes(length);
            keeps_what_is_whole();
            old_len = 0;
            add_likely_bytes(length);
            keeps_what_is_whole();
        }
        for (size_t entries = 0; entries <= 2; entries++) {
            this_case_is("the first %zu bytes of a file of %zu entries", length, entries);
            old_len = 0;
            add_file(entries);
            old_len = length < old_len ? length : old_len;
            keeps_what_is_whole();
        }
    }
}

/* Each length that a block can state in so few bytes: without words only 8 is right; with a count that it fits, each
 * that is within the bytes. */
static void every_stated_length(void)
{
    for (size_t stated = 8; stated <= FEW + 2; stated++) {
        for (size_t length = 8; length <= FEW; length++) {
            this_case_is("a block of %zu bytes in %zu", stated, length);
            old_len = 0;
            memset(old, 0, FEW);
            add_predicted_block(2 * (stated - 8));
            old_len = length;
            keeps(stated <= length, 0, any_exam(), any_t());
            memset(old, 0, FEW);
            put_field(old + 4, 4, stated);
            keeps(stated == 8, 0, any_exam(), any_t());
        }
    }
}

/* ---- 1,024 blocks and more ---- */

/* Blocks without words, the one at a place with the wrong length (none where the place is behind them all). */
static void many_blocks(size_t blocks, size_t wrong)
{
    const uint64_t exam = any_exam(), word = 3;
    const size_t right = wrong < blocks ? wrong : blocks;
    old_len = 0;
    while (old_len < 8 * blocks) {
        add_bytes(no_words, sizeof no_words);
    }
    old[8 * wrong + 4] = 9;
    this_case_is("%zu blocks without words, block %zu is wrong", blocks, wrong);
    outcome result = keeps(right < MOST_ENTRIES ? right : MOST_ENTRIES, random_below(3), exam, 2);
    must_hold(result.left_over == 8 * (blocks - result.second), "the rest of the blocks is left over");
    must_hold(result.second < blocks || result.first == COIL_SALVAGE_ROOM(old_len), "no byte of that room is in vain");
    lent_file file = is_a_file(result, exam, 2);
    must_answer(compare_find(file, (uint32_t)result.second - 1), 0);
    must_answer(compare_find(file, (uint32_t)result.second), 10);
    file.buffer += 12 + WORST(1);
    must_answer(compare_append(file, (uint32_t)result.second, &word, 1, tables_of(2), WORST(1)),
                result.second < MOST_ENTRIES ? 0 : 12);
}

static void blocks_up_to_the_limit(void)
{
    static const size_t some_blocks[] = { 1, 1022, 1023, 1024, 1025, 1026, 1100, 3000 };
    for (size_t i = 0; i < sizeof some_blocks / sizeof some_blocks[0]; i++) {
        many_blocks(some_blocks[i], some_blocks[i]);
    }
    many_blocks(1100, 1);
    many_blocks(1100, 1022);
    many_blocks(1100, 1023);
    many_blocks(1100, 1024);
    many_blocks(1100, 1025);
}

/* ---- Rooms and refusals ---- */

/* Every buffer from none to more than any salvage of so many bytes asks for. */
static void every_room(size_t blocks, size_t tail)
{
    old_len = 0;
    for (size_t i = 0; i < blocks; i++) {
        add_good_block();
    }
    size_t needed = old_len + 12 * blocks + 32;
    memset(old + old_len, 0, tail);
    old_len += tail;
    for (size_t room = 0; room <= COIL_SALVAGE_ROOM(old_len) + 3; room++) {
        this_case_is("%zu blocks, %zu bytes left over, room for %zu of %zu bytes", blocks, tail, room, needed);
        outcome result = compare_salvage(old, old_len, room, any_exam(), any_t());
        must_answer(result, room < needed ? 3 : 0);
        must_hold(result.first == (room < needed ? 0 : needed), "the true length is asked for and answered");
    }
}

/* Exam number, t and room: the first that breaks its rule answers. */
static void every_order(size_t blocks)
{
    static const uint64_t exams[] = { 0, 1, UINT64_C(1) << 32, UINT64_C(1) << 63, UINT64_MAX };
    static const uint32_t wrong_t[] = { 17, 18, 255, 256, 65536, 65546, 0x80000000, 0x80000001, UINT32_MAX };
    old_len = 0;
    for (size_t i = 0; i < blocks; i++) {
        add_good_block();
    }
    size_t needed = old_len + 12 * blocks + 32;
    const size_t rooms[] = { 0, 31, needed - 1, needed, needed + 1, COIL_SALVAGE_ROOM(old_len) };
    add_random_bytes(7);
    for (size_t i = 0; i < 5 * 26 * 6; i++) {
        uint64_t exam = exams[i % 5];
        uint32_t t = i / 5 % 26 < 17 ? (uint32_t)(i / 5 % 26) : wrong_t[i / 5 % 26 - 17];
        size_t room = rooms[i / 130];
        this_case_is("%zu blocks, exam %llu, t = %u, room for %zu of %zu bytes", blocks, (unsigned long long)exam, t,
                     room, needed);
        must_answer(compare_salvage(old, old_len, room, exam, t),
                    exam == 0 ? 8 : t > 16 ? 7 : room < needed ? 3 : 0);
    }
}

static void every_room_and_order(void)
{
    every_room(0, 0);
    every_room(0, 60);
    every_room(1, 0);
    every_room(3, 5);
    every_room(3, 200);
    every_room(7, 0);
    every_order(0);
    every_order(3);
}

/* ---- Rows of anything ---- */

/* A block with one to three bytes changed. It may be whole still. */
static void add_damaged_block(void)
{
    size_t start = old_len;
    add_good_block();
    for (size_t changes = 1 + random_below(3); changes > 0; changes--) {
        old[start + random_below(old_len - start)] ^= (uint8_t)(1 + random_below(255));
    }
}

static void add_padded_block(void)
{
    static uint8_t block[WORST(9)];
    add_bytes(block, forge_padded_block(block, 1 + random_below(9)));
}

static void add_whole_block(void)
{
    size_t kind = random_below(13);
    if (kind < 7) {
        add_good_block();
    } else if (kind < 11) {
        add_packed_block();
    } else {
        add_bytes(no_words, sizeof no_words);
    }
}

/* Whether it is a block, and whole for certain. */
static bool add_anything(void)
{
    size_t kind = random_below(16);
    if (kind < 13) {
        add_whole_block();
    } else if (kind < 14) {
        add_damaged_block();
    } else if (kind < 15) {
        add_file(random_below(3));
    } else {
        add_random_bytes(1 + random_below(60));
    }
    return kind < 13;
}

/* Every second time a few bytes are cut off at the end, mostly in the middle of a block. */
static void row_of_anything(unsigned round)
{
    size_t pieces = random_below(9), certain = 0;
    bool all_are_blocks = true;
    old_len = 0;
    for (size_t i = 0; i < pieces; i++) {
        all_are_blocks = add_anything() && all_are_blocks;
        certain += all_are_blocks;
    }
    bool is_cut = round % 2 == 0 && old_len >= 8;
    if (is_cut) {
        old_len -= 1 + random_below(7);
    } else {
        add_random_bytes(random_below(8));
    }
    this_case_is("%zu blocks and other pieces, %zu bytes, round %u", pieces, old_len, round);
    size_t kept = keeps_what_is_whole().second;
    must_hold(kept + is_cut >= certain, "each whole block is kept, up to the first other piece");
    must_hold(!all_are_blocks || kept + is_cut == pieces, "a block that is cut is not kept, nor fewer than 8 bytes");
}

/* Whole blocks, a padded one, and anything behind it. */
static void row_with_a_padded_block(unsigned round)
{
    size_t before = random_below(5);
    old_len = 0;
    for (size_t i = 0; i < before; i++) {
        add_whole_block();
    }
    size_t start = old_len;
    add_padded_block();
    for (size_t more = random_below(4); more > 0; more--) {
        add_anything();
    }
    this_case_is("%zu blocks and a padded one, %zu bytes, round %u", before, old_len, round);
    ends_at(before, start);
}

void group_salvage(unsigned rounds)
{
    for (unsigned round = 0; round < rounds; round++) {
        for (uint32_t t = 0; t <= 16; t++) {
            every_cut(t, (t + round) % (MOST_MAPS + 1), t + round);
        }
        for (size_t entries = 0; entries <= 3; entries++) {
            every_change(entries);
        }
        every_place();
    }
    files_with_tails();
    a_mark_that_reads_as_a_count();
    a_directory_that_reads_as_a_block();
    a_directory_inside_a_block();
    long_blocks();
    few_bytes(rounds);
    every_stated_length();
    blocks_up_to_the_limit();
    every_room_and_order();
    for (unsigned round = 0; round < 1000 * rounds; round++) {
        row_of_anything(round);
    }
    for (unsigned round = 0; round < 100 * rounds; round++) {
        row_with_a_padded_block(round);
    }
}
