/* Damage: every bit flipped, every cut, bytes changed, fields forged. Most damage must be refused with
 * one number, some is accepted with other words; the reference says which. */
#include "groups.h"
#include "inputs.h"
#include "words.h"

#include <string.h>

#define MOST_FILE 1024

static uint8_t block[400];
static const uint64_t one_word[1] = { 42 };

/* Small enough to try each bit; room for one word more than any block declares by one flipped bit
 * of a low count. */
#define ROOM 40

/* ---- Blocks ---- */

static void try_block(const uint8_t *bytes, size_t length, uint32_t t)
{
    compare_check(bytes, length);
    compare_unpack(bytes, length, tables_of(t), ROOM);
}

static void every_bit_of_a_block(size_t length, uint32_t t)
{
    for (size_t bit = 0; bit < 8 * length; bit++) {
        this_case_is("block of %zu bytes, bit %zu flipped", length, bit);
        block[bit / 8] ^= (uint8_t)(1u << bit % 8);
        try_block(block, length, t);
        block[bit / 8] ^= (uint8_t)(1u << bit % 8);
    }
}

static void every_byte_of_a_block(size_t length, uint32_t t)
{
    static const uint8_t values[] = { 0x00, 0x01, 0x07, 0x70, 0x77, 0x7F, 0x80, 0xF7, 0xFF };
    for (size_t at = 0; at < length; at++) {
        uint8_t kept = block[at];
        for (size_t i = 0; i < sizeof values; i++) {
            this_case_is("block of %zu bytes, byte %zu made %02X", length, at, values[i]);
            block[at] = values[i];
            try_block(block, length, t);
        }
        block[at] = kept;
    }
}

/* Cut and grown, once with the old length field and once with one that fits the new length. */
static void every_length_of_a_block(size_t length, uint32_t t)
{
    random_bytes(block + length, 20);
    for (size_t cut = 0; cut <= length + 20; cut++) {
        this_case_is("block of %zu bytes cut or grown to %zu", length, cut);
        try_block(block, cut, t);
        put_field(block + 4, 4, cut);
        try_block(block, cut, t);
        put_field(block + 4, 4, length);
    }
    for (uint64_t field = 0; field <= length + 20; field++) {
        this_case_is("block of %zu bytes, length field %u", length, (unsigned)field);
        put_field(block + 4, 4, field);
        compare_check(block, length);
    }
    put_field(block + 4, 4, length);
    uint64_t count = get_field(block, 4);
    for (uint64_t declared = 0; declared <= count + 4; declared++) {
        this_case_is("block of %u words declares %u", (unsigned)count, (unsigned)declared);
        put_field(block, 4, declared);
        try_block(block, length, t);
    }
    put_field(block, 4, count);
}

/* As it is packed; of any codes and bytes; and so, with a residual that is padded already. */
static size_t make_block(size_t count, uint32_t t)
{
    uint64_t words[12];
    size_t kind = random_below(4);
    if (kind < 2) {
        make_words((kind_of_words)random_below(KINDS), words, count);
        outcome packed = compare_pack(words, count, tables_of(t), WORST(count));
        memcpy(block, packed.bytes, packed.first);
        return packed.first;
    }
    return kind == 2 || count == 0 ? forge_block(block, count) : forge_padded_block(block, count);
}

static void damaged_blocks(unsigned rounds)
{
    for (unsigned round = 0; round < 8 * rounds; round++) {
        uint32_t t = (uint32_t)random_below(7);
        size_t length = make_block(round % 12, t);
        every_bit_of_a_block(length, t);
        every_byte_of_a_block(length, t);
        every_length_of_a_block(length, t);
    }
}

/* ---- Files ---- */

static void try_file(lent_file lending, uint32_t t, size_t room)
{
    uint32_t opened = compare_open(lending).answer;
    for (uint32_t slot = 0; slot < 7; slot++) {
        compare_find(lending, slot);
    }
    for (uint32_t slot = 0; slot < 7; slot += 1 + (uint32_t)random_below(3)) {
        compare_fetch(lending, slot, tables_of(t), room);
    }
    lending.buffer += 12 + WORST(1);
    compare_append(lending, 5 + (uint32_t)random_below(5), one_word, 1, tables_of(t), WORST(1));
    for (uint32_t slot = 0; slot < 7; slot += 1 + (uint32_t)random_below(5)) {
        outcome replaced = compare_replace(lending, slot, one_word, 1, tables_of(t), WORST(1));
        must_hold(opened == 0 || replaced.answer == opened, "a replace refuses what open refuses");
    }
}

static void every_bit_of_a_file(exam_file *f)
{
    for (size_t bit = 0; bit < 8 * f->length; bit++) {
        this_case_is("file of %zu bytes, bit %zu flipped", f->length, bit);
        f->bytes[bit / 8] ^= (uint8_t)(1u << bit % 8);
        try_file(lend_with_spare(f, 0), f->t, ROOM);
        f->bytes[bit / 8] ^= (uint8_t)(1u << bit % 8);
    }
}

/* Cut at the end, and cut at the front so that the trailer stays. */
static void every_cut_of_a_file(exam_file *f)
{
    for (size_t cut = 0; cut <= f->length; cut++) {
        lent_file lending = lend_with_spare(f, 0);
        this_case_is("file of %zu bytes cut to %zu at its end", f->length, cut);
        lending.length = cut;
        lending.buffer = cut;
        try_file(lending, f->t, ROOM);
        this_case_is("file of %zu bytes cut by %zu at its front", f->length, cut);
        lending.bytes = f->bytes + cut;
        lending.known = f->length - cut;
        lending.length = lending.known;
        lending.buffer = lending.known;
        try_file(lending, f->t, ROOM);
        if (lending.length >= 32) {
            put_field(trailer_of(f) + AT_LENGTH, 8, lending.length);
            try_file(lending, f->t, ROOM);
            put_field(trailer_of(f) + AT_LENGTH, 8, f->length);
        }
    }
}

static void damaged_files(unsigned rounds)
{
    for (unsigned round = 0; round < 2 * rounds; round++) {
        exam_file f = small_exam_file((uint32_t)random_below(5), round % 4, 6);
        every_bit_of_a_file(&f);
        every_cut_of_a_file(&f);
        forget_exam_file(&f);
    }
}

/* ---- Forged fields ---- */

static void try_field(exam_file *f, uint8_t *at, unsigned bytes, uint64_t value, const char *name)
{
    uint64_t kept = get_field(at, bytes);
    this_case_is("file of %zu bytes, %zu entries: %s made %llu", f->length, f->entries, name,
                 (unsigned long long)value);
    put_field(at, bytes, value);
    try_file(lend_with_spare(f, 3), f->t, ROOM);
    put_field(at, bytes, kept);
}

/* Values near the right one, near the limits, and near the ends of each width. */
static void try_values(exam_file *f, uint8_t *at, unsigned bytes, const char *name)
{
    static const uint64_t values[] = {
        0, 1, 2, 7, 8, 9, 12, 15, 16, 17, 18, 31, 32, 33, 44, 56, 255, 256, 1023, 1024, 1025, 65535, 65536,
        0x7FFFFFFF, 0x80000000, 0xFFFFFFF8, 0xFFFFFFFF, UINT64_C(0x100000000), UINT64_C(0x8000000000000000),
        UINT64_MAX
    };
    uint64_t right = get_field(at, bytes);
    for (size_t i = 0; i < sizeof values / sizeof values[0]; i++) {
        try_field(f, at, bytes, values[i], name);
    }
    for (uint64_t step = 1; step <= 13; step++) {
        try_field(f, at, bytes, right + step, name);
        try_field(f, at, bytes, right - step, name);
    }
    try_field(f, at, bytes, right + UINT64_C(0x100000000), name);
}

static void every_field(exam_file *f)
{
    uint8_t *trailer = trailer_of(f);
    try_values(f, trailer + AT_MARK, 4, "mark");
    try_values(f, trailer + AT_EDITION, 2, "edition");
    try_values(f, trailer + AT_T, 2, "t");
    try_values(f, trailer + AT_EXAM, 8, "exam");
    try_values(f, trailer + AT_DISTANCE, 4, "distance");
    try_values(f, trailer + AT_ENTRIES, 4, "entries");
    try_values(f, trailer + AT_LENGTH, 8, "length");
    for (size_t i = 0; i < f->entries; i++) {
        uint8_t *entry = entry_of(f, i);
        try_values(f, entry + AT_SLOT, 4, "slot");
        try_values(f, entry + AT_OFFSET, 4, "offset");
        try_values(f, entry + AT_BLOCK_LENGTH, 4, "block length");
    }
}

/* Entries and distance agree, but with other bytes of the file taken for the directory, or with a
 * distance that only agrees modulo 2^32. */
static void other_directories(exam_file *f)
{
    static const uint64_t entries[] = { 0, 1, 2, 3, 4, 5, 1024, 1025, 357913942, 357913939, 715827883 };
    uint8_t *trailer = trailer_of(f);
    for (size_t i = 0; i < sizeof entries / sizeof entries[0]; i++) {
        put_field(trailer + AT_ENTRIES, 4, entries[i]);
        put_field(trailer + AT_DISTANCE, 4, 32 + 12 * entries[i]);
        this_case_is("file of %zu bytes taken for %u entries", f->length, (unsigned)entries[i]);
        try_file(lend_with_spare(f, 3), f->t, ROOM);
    }
    put_field(trailer + AT_ENTRIES, 4, f->entries);
    put_field(trailer + AT_DISTANCE, 4, 32 + 12 * f->entries);
}

/* Lengths that pass 2^32 and come out right modulo 2^32. */
static void directory_that_wraps(void)
{
    exam_file f = new_exam_file(200, 3, 2);
    size_t length = forge_block(block, 2);
    add_block(&f, 1, block, length);
    add_block(&f, 2, block, length);
    for (uint64_t low = 0; low <= 2 * length; low++) {
        uint64_t first = UINT64_C(0x100000000) - low;
        this_case_is("directory that wraps, first length %llu", (unsigned long long)first);
        put_field(entry_of(&f, 0) + AT_BLOCK_LENGTH, 4, first);
        put_field(entry_of(&f, 1) + AT_OFFSET, 4, first);
        put_field(entry_of(&f, 1) + AT_BLOCK_LENGTH, 4, 2 * length + low);
        try_file(lend_with_spare(&f, 0), 2, ROOM);
        must_answer(compare_open(lend_with_spare(&f, 0)), 9);
    }
    forget_exam_file(&f);
}

/* Two broken fields at once can agree with each other: neighbours moved against each other. */
static void moved_borders(exam_file *f)
{
    for (size_t i = 0; i + 1 < f->entries; i++) {
        for (uint64_t step = 1; step <= 12; step++) {
            uint8_t *left = entry_of(f, i);
            uint8_t *right = entry_of(f, i + 1);
            uint64_t left_length = get_field(left + AT_BLOCK_LENGTH, 4);
            uint64_t right_offset = get_field(right + AT_OFFSET, 4);
            uint64_t right_length = get_field(right + AT_BLOCK_LENGTH, 4);
            put_field(left + AT_BLOCK_LENGTH, 4, left_length - step);
            put_field(right + AT_OFFSET, 4, right_offset - step);
            this_case_is("offset and length of entry %zu moved by %u", i, (unsigned)step);
            try_file(lend_with_spare(f, 0), f->t, ROOM);
            put_field(right + AT_BLOCK_LENGTH, 4, right_length + step);
            this_case_is("border of entry %zu moved by %u", i, (unsigned)step);
            try_file(lend_with_spare(f, 0), f->t, ROOM);
            put_field(left + AT_BLOCK_LENGTH, 4, left_length);
            put_field(right + AT_OFFSET, 4, right_offset);
            put_field(right + AT_BLOCK_LENGTH, 4, right_length);
        }
    }
}

/* The first block does not start at 0, and everything behind it agrees. */
static void moved_start(exam_file *f)
{
    uint8_t *entry = entry_of(f, 0);
    uint64_t length = get_field(entry + AT_BLOCK_LENGTH, 4);
    for (uint64_t step = 1; step <= 12 && f->entries > 0; step++) {
        put_field(entry + AT_OFFSET, 4, step);
        put_field(entry + AT_BLOCK_LENGTH, 4, length - step);
        this_case_is("start of the first block moved by %u", (unsigned)step);
        try_file(lend_with_spare(f, 0), f->t, ROOM);
        must_answer(compare_open(lend_with_spare(f, 0)), 9);
        put_field(entry + AT_OFFSET, 4, 0);
        put_field(entry + AT_BLOCK_LENGTH, 4, length);
    }
}

/* A file with no entry but bytes before the trailer, and a whole file moved up by a few bytes. */
static void bytes_in_front(void)
{
    for (size_t entries = 0; entries < 3; entries++) {
        for (size_t moved = 1; moved <= 24; moved++) {
            exam_file f = small_exam_file(1, entries, 4);
            uint8_t bytes[MOST_FILE];
            random_bytes(bytes, moved);
            memcpy(bytes + moved, f.bytes, f.length);
            put_field(bytes + moved + f.length - 32 + AT_LENGTH, 8, f.length + moved);
            lent_file lending = { bytes, f.length + moved, f.length + moved, f.length + moved, f.exam };
            this_case_is("%zu bytes in front of a file with %zu entries", moved, entries);
            try_file(lending, f.t, ROOM);
            must_answer(compare_open(lending), 9);
            forget_exam_file(&f);
        }
    }
}

static void forged_fields(unsigned rounds)
{
    for (unsigned round = 0; round < (rounds + 1) / 2; round++) {
        for (size_t entries = 0; entries <= 3; entries++) {
            exam_file f = small_exam_file((uint32_t)random_below(5), entries, 6);
            every_field(&f);
            other_directories(&f);
            moved_borders(&f);
            moved_start(&f);
            forget_exam_file(&f);
        }
    }
    directory_that_wraps();
    bytes_in_front();
}

static void random_damage(unsigned rounds)
{
    for (unsigned round = 0; round < 150 * rounds; round++) {
        exam_file f = small_exam_file((uint32_t)random_below(9), random_below(4), 30);
        size_t changes = 1 + random_below(4);
        for (size_t i = 0; i < changes; i++) {
            f.bytes[random_below(f.length)] ^= (uint8_t)(1 + random_below(255));
        }
        this_case_is("%zu random changes in a file of %zu bytes, round %u", changes, f.length, round);
        try_file(lend_with_spare(&f, random_below(10)), f.t, ROOM);
        forget_exam_file(&f);
    }
}

void group_damage(unsigned rounds)
{
    damaged_blocks(rounds);
    damaged_files(rounds);
    forged_fields(rounds);
    random_damage(rounds);
}
