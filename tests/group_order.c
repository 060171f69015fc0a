/* The order of the checks: every combination of broken rules. The first of the call's list answers. */
#include "groups.h"
#include "inputs.h"
#include "words.h"

#include <stdlib.h>
#include <string.h>

#define TOO_MANY 65537

static uint64_t *many_words;

/* The answer the rules give: that of the first broken rule in the call's list. */
static uint32_t first_broken(const uint32_t *list, unsigned rules, unsigned broken)
{
    for (unsigned i = 0; i < rules; i++) {
        if (broken >> i & 1) {
            return list[i];
        }
    }
    return 0;
}

/* Tables that are wrong for a file of t = 2, each in another way. */
#define WRONG_TABLES 3
static const table_sizes wrong_tables[WRONG_TABLES] = { { 8, 8 }, { 3, 3 }, { 4, 2 } };

static void order_of_pack(void)
{
    static const uint32_t list[3] = { 1, 2, 3 };
    for (unsigned broken = 0; broken < 8; broken++) {
        size_t count = broken & 2 ? TOO_MANY : 6;
        table_sizes tables = { 8, broken & 1 ? 7 : 8 };
        this_case_is("order of pack, broken %X", broken);
        must_answer(compare_pack(many_words, count, tables, WORST(count) - (broken & 4 ? 1 : 0)),
                    first_broken(list, 3, broken));
    }
}

static void order_of_create(void)
{
    static const uint32_t list[3] = { 8, 7, 3 };
    for (unsigned broken = 0; broken < 8; broken++) {
        this_case_is("order of create, broken %X", broken);
        must_answer(compare_create(broken & 4 ? 31 : 32, broken & 1 ? 0 : 5, broken & 2 ? 17 : 16),
                    first_broken(list, 3, broken));
    }
}

#define BLOCK 11

/* A block of three words with the rules of the mask broken: 4 short, 2 count, 5 length, 6 filler, 13 padded. */
static size_t broken_block(uint8_t *block, unsigned broken)
{
    static const uint8_t right[BLOCK] = { 3, 0, 0, 0, BLOCK, 0, 0, 0, 0x76, 0x77, 1 };
    memcpy(block, right, BLOCK);
    if (broken & 2) {
        put_field(block, 4, broken & 4 ? TOO_MANY : UINT32_MAX);
    }
    if (broken & 4) {
        block[4]++;
    }
    if (broken & 8) {
        block[9] = 0x7F;
    }
    if (broken & 16) {
        block[10] = 0;
    }
    return broken & 1 ? 7 : BLOCK;
}

static void order_of_blocks(void)
{
    static const uint32_t check_list[5] = { 4, 2, 5, 6, 13 };
    static const uint32_t unpack_list[7] = { 1, 4, 2, 5, 6, 13, 3 };
    uint8_t block[BLOCK];
    for (unsigned broken = 0; broken < 32; broken++) {
        size_t length = broken_block(block, broken);
        this_case_is("order of check, broken %X", broken);
        must_answer(compare_check(block, length), first_broken(check_list, 5, broken));
    }
    for (unsigned broken = 0; broken < 128; broken++) {
        size_t length = broken_block(block, broken >> 1 & 31);
        table_sizes tables = { broken & 1 ? 3 : 4, broken & 1 ? 3 : 4 };
        this_case_is("order of unpack, broken %X", broken);
        must_answer(compare_unpack(block, length, tables, broken & 64 ? 2 : 3),
                    first_broken(unpack_list, 7, broken));
    }
}

/* Breaks the rules of the mask in a file: 4 length beyond the buffer, 7 trailer, 8 exam, 9 directory.
 * Rule 4 leaves the buffer one byte short; the spare is lost with it. */
static lent_file broken_file(exam_file *f, unsigned broken, size_t spare)
{
    if (broken & 2) {
        put_field(trailer_of(f) + AT_EDITION, 2, 2);
    }
    if (broken & 8) {
        put_field(entry_of(f, 0) + AT_OFFSET, 4, 1);
    }
    lent_file lending = lend_with_spare(f, spare);
    if (broken & 4) {
        lending.exam++;
    }
    if (broken & 1) {
        lending.buffer = f->length - 1;
    }
    return lending;
}

static void mend_file(exam_file *f)
{
    put_field(trailer_of(f) + AT_EDITION, 2, 1);
    put_field(entry_of(f, 0) + AT_OFFSET, 4, 0);
}

static void order_of_reading(table_sizes wrong)
{
    static const uint32_t list[11] = { 4, 7, 8, 9, 10, 1, 2, 5, 6, 13, 3 };
    static uint8_t block[BLOCK];
    for (unsigned broken = 0; broken < 2048; broken++) {
        exam_file f = new_exam_file(100, 77, 2);
        broken_block(block, broken >> 5 & 30);
        add_block(&f, 9, block, BLOCK);
        lent_file lending = broken_file(&f, broken & 15, 0);
        uint32_t slot = broken & 16 ? 8 : 9;
        table_sizes tables = broken & 32 ? wrong : tables_of(2);
        this_case_is("order of fetch, broken %X, wrong tables %zu and %zu", broken, wrong.fcm, wrong.dfcm);
        must_answer(compare_fetch(lending, slot, tables, broken & 1024 ? 2 : 3),
                    first_broken(list, 11, broken));
        if (broken < 32) {
            must_answer(compare_find(lending, slot), first_broken(list, 5, broken));
            must_answer(compare_open(lending), first_broken(list, 4, broken));
        }
        forget_exam_file(&f);
    }
}

/* Whether the file is full (rule 12) is the caller's part; the other rules are broken here. */
static void order_of_append(exam_file *f, bool full, table_sizes wrong)
{
    static const uint32_t list[10] = { 4, 7, 8, 9, 12, 11, 1, 2, 3, 3 };
    uint32_t last = (uint32_t)get_field(entry_of(f, f->entries - 1) + AT_SLOT, 4);
    for (unsigned broken = 0; broken < 1024; broken++) {
        bool is_full = broken >> 4 & 1;
        bool too_many = broken >> 7 & 1;
        if (is_full != full) {
            continue;
        }
        size_t count = too_many ? TOO_MANY : 2;
        lent_file lending = broken_file(f, broken & 15, 12 + WORST(count) - (broken & 256 ? 1 : 0));
        table_sizes tables = broken & 64 ? wrong : tables_of(2);
        this_case_is("order of append, broken %X, wrong tables %zu and %zu", broken, wrong.fcm, wrong.dfcm);
        must_answer(compare_append(lending, broken & 32 ? last : last + 1, many_words, count, tables,
                                   WORST(count) - (broken & 512 ? 1 : 0)),
                    first_broken(list, 10, broken));
        mend_file(f);
    }
}

static void order_of_appends(table_sizes wrong)
{
    static const uint8_t empty_block[8] = { 0, 0, 0, 0, 8, 0, 0, 0 };
    exam_file f = new_exam_file(32 + 1024 * 20, 5, 2);
    add_block(&f, 4, empty_block, 8);
    order_of_append(&f, false, wrong);
    for (uint32_t slot = 5; f.entries < 1024; slot++) {
        add_block(&f, slot, empty_block, 8);
    }
    order_of_append(&f, true, wrong);
    forget_exam_file(&f);
}

/* Lends a list with the rules of the mask broken at one place: 4, 7, 8, 9, 15, 12, 11, 1, 2, and 3 in the buffer and in
 * the bench. Whether the file is full there (rule 12) is the caller's part. The records before that place have no words
 * and take 20 bytes of the file each. Where a rule is broken one more stands behind, for a call that goes on. */
static outcome broken_list(exam_file *f, size_t place, unsigned broken)
{
    coil_record records[4];
    uint32_t last = (uint32_t)get_field(entry_of(f, f->entries - 1) + AT_SLOT, 4);
    for (uint32_t i = 0; i < 4; i++) {
        coil_record without_words = { last + 1 + i, 0, 0 };
        records[i] = without_words;
    }
    bool outside = broken >> 4 & 1;
    size_t count = broken & 256 ? TOO_MANY : 2;
    size_t spare = 20 * place + 12 + WORST(count) - (broken & 512 ? 1 : 0);
    table_sizes tables = broken & 128 ? wrong_tables[broken % WRONG_TABLES] : tables_of(2);
    records[place].slot -= broken & 64 ? 1 : 0;
    records[place].first = outside;
    records[place].count = count;
    return compare_append_all(broken_file(f, broken & 15, spare), records, place + (broken ? 2 : 1), many_words,
                              outside ? 2 : count, tables, WORST(count) - (broken & 1024 ? 1 : 0));
}

/* Open's rules and the tables are the same for every record, so that these are broken at the first place only. Too many
 * words take long to compare where they are lent (they are not where rule 15 is broken too), so open's rules are not
 * broken with them. */
static void order_of_list(exam_file *f, size_t place, bool full)
{
    static const uint32_t list[11] = { 4, 7, 8, 9, 15, 12, 11, 1, 2, 3, 3 };
    for (unsigned broken = 0; broken < 2048; broken++) {
        bool is_full = broken >> 5 & 1, of_open = (broken & 15) != 0, of_tables = broken >> 7 & 1;
        bool lends_too_many = (broken & 256) != 0 && (broken & 16) == 0;
        if (is_full != full || (place > 0 && (of_open || of_tables)) || (lends_too_many && of_open)) {
            continue;
        }
        this_case_is("order of append_all, broken %X, record %zu", broken, place);
        outcome result = broken_list(f, place, broken);
        must_answer(result, first_broken(list, 11, broken));
        must_hold(result.second == (broken ? place : place + 1), "what stood before the refusal went in");
        mend_file(f);
    }
}

/* A full file comes last: with 1,022 entries it is full for the third record, with 1,024 for the first. */
static void order_of_lists(void)
{
    static const uint8_t empty_block[8] = { 0, 0, 0, 0, 8, 0, 0, 0 };
    exam_file f = new_exam_file(32 + 1024 * 20, 5, 2);
    add_block(&f, 4, empty_block, 8);
    for (size_t place = 0; place < 3; place++) {
        order_of_list(&f, place, false);
    }
    for (uint32_t slot = 5; f.entries < 1024; slot++) {
        add_block(&f, slot, empty_block, 8);
        if (f.entries > 1021) {
            order_of_list(&f, 1024 - f.entries, true);
        }
    }
    forget_exam_file(&f);
}

/* Rule 3 is broken in the buffer and in the bench. The block that goes has 8 bytes, fewer than the new one has at
 * worst: so a buffer with one byte too few still holds the whole file. Too many words take long to compare, so with
 * them at most one of open's rules is broken. */
static void order_of_replace(table_sizes wrong)
{
    static const uint32_t list[9] = { 4, 7, 8, 9, 10, 1, 2, 3, 3 };
    static const uint8_t empty_block[8] = { 0, 0, 0, 0, 8, 0, 0, 0 };
    exam_file f = new_exam_file(100, 5, 2);
    add_block(&f, 4, empty_block, 8);
    add_block(&f, 9, empty_block, 8);
    for (unsigned broken = 0; broken < 512; broken++) {
        bool several_of_open = (broken & 15 & ((broken & 15) - 1)) != 0;
        size_t count = broken & 64 ? TOO_MANY : 2;
        if (count == TOO_MANY && several_of_open) {
            continue;
        }
        lent_file lending = broken_file(&f, broken & 15, WORST(count) - 8 - (broken & 128 ? 1 : 0));
        table_sizes tables = broken & 32 ? wrong : tables_of(2);
        this_case_is("order of replace, broken %X, wrong tables %zu and %zu", broken, wrong.fcm, wrong.dfcm);
        must_answer(compare_replace(lending, broken & 16 ? 5 : 4, many_words, count, tables,
                                    WORST(count) - (broken & 256 ? 1 : 0)),
                    first_broken(list, 9, broken));
        mend_file(&f);
    }
    forget_exam_file(&f);
}

void group_order(unsigned rounds)
{
    many_words = malloc(8 * TOO_MANY);
    must_hold(many_words != NULL, "memory for the words");
    make_words(NOISE, many_words, TOO_MANY);
    order_of_pack();
    order_of_create();
    order_of_blocks();
    for (unsigned i = 0; i < WRONG_TABLES; i++) {
        order_of_reading(wrong_tables[i]);
    }
    order_of_lists();
    for (unsigned i = 0; i < WRONG_TABLES && i < rounds; i++) {
        order_of_appends(wrong_tables[i]);
        order_of_replace(wrong_tables[i]);
    }
    free(many_words);
}
