/* See inputs.h. */
#include "inputs.h"
#include "words.h"

#include <stdio.h>
#include <stdlib.h>
#include <string.h>

void put_field(uint8_t *at, unsigned bytes, uint64_t value)
{
    for (unsigned i = 0; i < bytes; i++) {
        at[i] = (uint8_t)(value >> (8 * i));
    }
}

uint64_t get_field(const uint8_t *at, unsigned bytes)
{
    uint64_t value = 0;
    for (unsigned i = bytes; i > 0; i--) {
        value = 256 * value + at[i - 1];
    }
    return value;
}

void every_kind_and_t(const char *title, unsigned rounds, uint64_t *words, size_t most, try_words *try)
{
    for (uint32_t t = 0; t <= 16; t++) {
        for (unsigned kind = 0; kind < KINDS; kind++) {
            for (unsigned round = 0; round < rounds; round++) {
                size_t count = random_below(4) == 0 ? random_below(9) : random_below(most + 1);
                this_case_is("%s: %s, t = %u, %zu words, round %u", title, kind_names[kind], t, count, round);
                make_words((kind_of_words)kind, words, count);
                try(count, t, round);
            }
        }
    }
}

/* ---- Codes and residuals ---- */

const unsigned residual_width[8] = { 8, 7, 6, 5, 3, 2, 1, 0 };

static bool has_room(unsigned low_bits, uint64_t residual)
{
    return residual_width[low_bits] == 8 || residual >> (8 * residual_width[low_bits]) == 0;
}

/* The low bits of the code that writes fewest bytes. */
static unsigned tightest(uint64_t residual)
{
    unsigned best = 0;
    for (unsigned low_bits = 0; low_bits < 8; low_bits++) {
        if (has_room(low_bits, residual) && residual_width[low_bits] < residual_width[best]) {
            best = low_bits;
        }
    }
    return best;
}

unsigned fewest_bytes(uint64_t residual)
{
    return residual_width[tightest(residual)];
}

unsigned code_at(const uint8_t *block, size_t index)
{
    return block[8 + index / 2] >> (index % 2 == 0 ? 4 : 0) & 15;
}

/* Codes are put in their order: the first of a byte puts the filler beside it, and the second takes its place. */
static void put_code(uint8_t *block, size_t index, unsigned code)
{
    uint8_t *pair = block + 8 + index / 2;
    *pair = (uint8_t)(index % 2 == 0 ? 16 * code + 7 : *pair / 16 * 16 + code);
}

static size_t put_head(uint8_t *block, size_t count, size_t length)
{
    put_field(block, 4, count);
    put_field(block + 4, 4, length);
    return length;
}

size_t residual_at(const uint8_t *block, size_t index)
{
    size_t at = 8 + (get_field(block, 4) + 1) / 2;
    for (size_t i = 0; i < index; i++) {
        at += residual_width[code_at(block, i) % 8];
    }
    return at;
}

bool has_padding(const uint8_t *block)
{
    size_t at = residual_at(block, 0), count = get_field(block, 4);
    for (size_t i = 0; i < count; i++) {
        unsigned written = residual_width[code_at(block, i) % 8];
        if (fewest_bytes(get_field(block + at, written)) < written) {
            return true;
        }
        at += written;
    }
    return false;
}

size_t tighten(uint8_t *to, const uint8_t *block)
{
    size_t count = get_field(block, 4), from = residual_at(block, 0), length = from;
    for (size_t i = 0; i < count; i++) {
        unsigned code = code_at(block, i), written = residual_width[code % 8];
        uint64_t residual = get_field(block + from, written);
        unsigned low_bits = tightest(residual);
        put_code(to, i, code / 8 * 8 + low_bits);
        put_field(to + length, residual_width[low_bits], residual);
        from += written;
        length += residual_width[low_bits];
    }
    return put_head(to, count, length);
}

/* ---- Forged blocks ---- */

/* With low bits 3 the top byte is 0 now and then: four zero bytes have no code of their own. */
static void forge_residual(uint8_t *at, unsigned low_bits)
{
    unsigned written = residual_width[low_bits];
    do {
        random_bytes(at, written);
        if (low_bits == 3 && random_below(3) == 0) {
            at[written - 1] = 0;
        }
    } while (fewest_bytes(get_field(at, written)) < written);
}

size_t forge_block_of(uint8_t *block, const uint8_t *codes, size_t count)
{
    size_t length = 8 + (count + 1) / 2;
    for (size_t i = 0; i < count; i++) {
        put_code(block, i, codes[i]);
        forge_residual(block + length, codes[i] % 8);
        length += residual_width[codes[i] % 8];
    }
    return put_head(block, count, length);
}

size_t forge_block(uint8_t *block, size_t count)
{
    static uint8_t codes[65536];
    for (size_t i = 0; i < count; i++) {
        codes[i] = (uint8_t)random_below(16);
    }
    return forge_block_of(block, codes, count);
}

bool pad_residual(uint8_t *block, size_t index)
{
    unsigned low_bits = code_at(block, index) % 8;
    size_t end = residual_at(block, index) + residual_width[low_bits];
    if (low_bits == 7) {
        return false;
    }
    block[end - 1] = 0;
    if (low_bits == 3) {
        block[end - 2] = 0;
    }
    return true;
}

size_t forge_padded_block(uint8_t *block, size_t count)
{
    size_t length = 0, padded = 0;
    while (padded == 0) {
        length = forge_block(block, count);
        for (size_t tries = 1 + random_below(3); tries > 0; tries--) {
            padded += pad_residual(block, random_below(count));
        }
    }
    return length;
}

typedef size_t forge_call(uint8_t *block, size_t count);

static void every_block_of(forge_call *forge, size_t least, const char *title, unsigned rounds, uint8_t *block,
                           try_forged *try)
{
    for (unsigned round = 0; round < 60 * rounds; round++) {
        size_t count = least + (random_below(2) ? random_below(10) : random_below(200 - least));
        uint32_t t = (uint32_t)(round % 17);
        size_t length = forge(block, count);
        this_case_is("%s, t = %u, %zu words, round %u", title, t, count, round);
        try(length, count, t);
    }
}

void every_forged_block(const char *title, unsigned rounds, uint8_t *block, try_forged *try)
{
    every_block_of(forge_block, 0, title, rounds, block, try);
}

void every_padded_block(const char *title, unsigned rounds, uint8_t *block, try_forged *try)
{
    every_block_of(forge_padded_block, 1, title, rounds, block, try);
}

/* ---- Files ---- */

static void write_trailer(exam_file *f)
{
    uint8_t *trailer = trailer_of(f);
    memcpy(trailer + AT_MARK, "coil\1\0", 6);
    put_field(trailer + AT_T, 2, f->t);
    put_field(trailer + AT_EXAM, 8, f->exam);
    put_field(trailer + AT_DISTANCE, 4, 32 + 12 * f->entries);
    put_field(trailer + AT_ENTRIES, 4, f->entries);
    put_field(trailer + AT_LENGTH, 8, f->length);
}

exam_file new_exam_file(size_t capacity, uint64_t exam, uint32_t t)
{
    exam_file f = { calloc(capacity, 1), capacity, 32, 0, exam, t };
    if (f.bytes == NULL) {
        printf("no memory for a file\n");
        exit(2);
    }
    write_trailer(&f);
    return f;
}

void forget_exam_file(exam_file *f)
{
    free(f->bytes);
    f->bytes = NULL;
}

uint8_t *trailer_of(const exam_file *f)
{
    return f->bytes + f->length - 32;
}

uint8_t *entry_of(const exam_file *f, size_t index)
{
    return f->bytes + f->length - 32 - 12 * (f->entries - index);
}

static void must_have_room(const exam_file *f, size_t length)
{
    if (length > f->capacity) {
        printf("the tests made a file too small\n");
        exit(2);
    }
}

void add_block(exam_file *f, uint32_t slot, const uint8_t *block, size_t block_len)
{
    size_t directory = f->length - 32 - 12 * f->entries;
    must_have_room(f, f->length + block_len + 12);
    memmove(f->bytes + directory + block_len, f->bytes + directory, 12 * f->entries);
    memcpy(f->bytes + directory, block, block_len);
    f->entries++;
    f->length += block_len + 12;
    uint8_t *entry = entry_of(f, f->entries - 1);
    put_field(entry + AT_SLOT, 4, slot);
    put_field(entry + AT_OFFSET, 4, directory);
    put_field(entry + AT_BLOCK_LENGTH, 4, block_len);
    write_trailer(f);
}

/* The length that is answered is 0 where a refusal left the file as it was. */
static void take_over_with(exam_file *f, outcome left, size_t more_entries)
{
    if (left.first == 0) {
        return;
    }
    must_have_room(f, left.first);
    memcpy(f->bytes, left.bytes, left.first);
    f->length = left.first;
    f->entries += more_entries;
}

void take_over(exam_file *f, outcome appended)
{
    take_over_with(f, appended, 1);
}

/* A refused list leaves what went in before. */
void take_over_list(exam_file *f, outcome appended)
{
    take_over_with(f, appended, appended.second);
}

void take_over_replaced(exam_file *f, outcome replaced)
{
    take_over_with(f, replaced, 0);
}

lent_file lend_with_spare(const exam_file *f, size_t spare)
{
    lent_file lending = { f->bytes, f->length, f->length + spare, f->length, f->exam };
    return lending;
}

table_sizes tables_of(uint32_t t)
{
    table_sizes tables = { (size_t)1 << t, (size_t)1 << t };
    return tables;
}

exam_file small_exam_file(uint32_t t, size_t entries, size_t most_words)
{
    exam_file f = new_exam_file(32 + entries * (12 + WORST(most_words)), 1 + random_below(1000), t);
    uint64_t words[64];
    uint32_t slot = (uint32_t)random_below(3);
    for (size_t i = 0; i < entries; i++) {
        size_t count = random_below(most_words + 1);
        make_words((kind_of_words)random_below(KINDS), words, count);
        outcome packed = compare_pack(words, count, tables_of(t), WORST(count));
        add_block(&f, slot, packed.bytes, packed.first);
        slot += 1 + (uint32_t)random_below(3);
    }
    return f;
}
