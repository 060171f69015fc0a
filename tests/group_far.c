/* The limits: 65,536 words, 1,024 entries, 16,777,216 bytes, and lengths beyond 32 bits. */
#define _DEFAULT_SOURCE
#include "coil.h"
#include "groups.h"
#include "inputs.h"
#include "reference.h"
#include "words.h"

#include <stdio.h>
#include <stdlib.h>
#include <string.h>
#include <sys/mman.h>

#define MOST_WORDS 65536
#define LIMIT ((size_t)16777216)

static uint64_t words[MOST_WORDS + 1];
static uint8_t block[WORST(MOST_WORDS + 1)];

static void most_words_of(kind_of_words kind, uint32_t t)
{
    this_case_is("65,536 words of %s, t = %u", kind_names[kind], t);
    make_words(kind, words, MOST_WORDS + 1);
    must_answer(compare_pack(words, MOST_WORDS + 1, tables_of(t), WORST(MOST_WORDS + 1)), 2);
    must_answer(compare_pack(words, MOST_WORDS, tables_of(t), WORST(MOST_WORDS) - 1), 3);
    outcome packed = compare_pack(words, MOST_WORDS, tables_of(t), WORST(MOST_WORDS));
    must_answer(packed, 0);
    size_t length = packed.first;
    memcpy(block, packed.bytes, length);
    must_answer(compare_check(block, length), 0);
    must_answer(compare_check(block, length - 1), 5);
    must_answer(compare_unpack(block, length, tables_of(t), MOST_WORDS - 1), 3);
    outcome unpacked = compare_unpack(block, length, tables_of(t), MOST_WORDS);
    must_answer(unpacked, 0);
    must_hold(memcmp(unpacked.words, words, sizeof words - 8) == 0, "unpacking gives the packed words");
}

static void most_words(unsigned rounds)
{
    static const uint32_t some_t[] = { 16, 0, 10, 15, 6, 1, 13 };
    for (unsigned kind = 0; kind < KINDS; kind++) {
        for (unsigned i = 0; i < (rounds < 7 ? 1 : 7); i++) {
            most_words_of((kind_of_words)kind, some_t[(kind + i) % 7]);
        }
    }
}

/* The one map of a file is replaced by the most words there may be, in just enough room, and by none again. */
static void replace_by_most_words(exam_file *f)
{
    size_t spare = WORST(MOST_WORDS + 1);
    make_words(FCM_WIDTHS, words, MOST_WORDS + 1);
    this_case_is("replaced by 65,536 and 65,537 words, and by none");
    must_answer(compare_replace(lend_with_spare(f, spare), 1, words, MOST_WORDS + 1, tables_of(12),
                                WORST(MOST_WORDS + 1)), 2);
    outcome replaced = compare_replace(lend_with_spare(f, WORST(MOST_WORDS) - 8), 1, words, MOST_WORDS,
                                       tables_of(12), WORST(MOST_WORDS));
    must_answer(replaced, 0);
    take_over_replaced(f, replaced);
    outcome fetched = compare_fetch(lend_with_spare(f, 0), 1, tables_of(12), MOST_WORDS);
    must_answer(fetched, 0);
    must_hold(memcmp(fetched.words, words, sizeof words - 8) == 0, "fetching gives the words that replaced");
    replaced = compare_replace(lend_with_spare(f, 0), 1, words, 0, tables_of(12), WORST(0));
    must_answer(replaced, 0);
    must_hold(replaced.first == 52, "a file of one block without words");
    take_over_replaced(f, replaced);
}

static void most_words_in_a_file(void)
{
    const size_t room = 12 + WORST(MOST_WORDS + 1);
    exam_file f = new_exam_file(32 + room, 11, 12);
    make_words(RUNS, words, MOST_WORDS + 1);
    this_case_is("65,536 and 65,537 words appended");
    must_answer(compare_append(lend_with_spare(&f, room), 1, words, MOST_WORDS + 1, tables_of(12),
                               WORST(MOST_WORDS + 1)), 2);
    outcome appended = compare_append(lend_with_spare(&f, room), 1, words, MOST_WORDS, tables_of(12),
                                      WORST(MOST_WORDS));
    must_answer(appended, 0);
    take_over(&f, appended);
    must_answer(compare_fetch(lend_with_spare(&f, 0), 1, tables_of(12), MOST_WORDS - 1), 3);
    outcome fetched = compare_fetch(lend_with_spare(&f, 0), 1, tables_of(12), MOST_WORDS);
    must_answer(fetched, 0);
    must_hold(memcmp(fetched.words, words, sizeof words - 8) == 0, "fetching gives the appended words");
    outcome emptied = compare_replace(lend_with_spare(&f, 0), 1, words, 0, tables_of(12), WORST(0));
    must_answer(emptied, 0);
    take_over_replaced(&f, emptied);
    replace_by_most_words(&f);
    forget_exam_file(&f);
}

/* Two records that share their words, the second with the most there may be, and with one more. */
static void most_words_in_a_list(void)
{
    const size_t room = 2 * (12 + WORST(MOST_WORDS + 1));
    coil_record list[2] = { { 1, 1, 9 }, { 2, 0, MOST_WORDS + 1 } };
    exam_file f = new_exam_file(32 + room, 11, 12);
    make_words(AIR_MAP, words, MOST_WORDS + 1);
    this_case_is("65,536 and 65,537 words in a list");
    outcome listed = compare_append_all(lend_with_spare(&f, room), list, 2, words, MOST_WORDS + 1, tables_of(12),
                                        WORST(MOST_WORDS + 1));
    must_answer(listed, 2);
    must_hold(listed.second == 1, "the record before went in");
    list[1].count = MOST_WORDS;
    listed = compare_append_all(lend_with_spare(&f, room), list, 2, words, MOST_WORDS, tables_of(12),
                                WORST(MOST_WORDS));
    must_answer(listed, 0);
    take_over_list(&f, listed);
    outcome fetched = compare_fetch(lend_with_spare(&f, 0), 2, tables_of(12), MOST_WORDS);
    must_answer(fetched, 0);
    must_hold(memcmp(fetched.words, words, sizeof words - 8) == 0, "fetching gives the words of the list");
    forget_exam_file(&f);
}

/* What an engine holds: sixteen maps, here of the most words, in one buffer. The first slot has its last words. */
static void sixteen_full_maps(void)
{
    static uint64_t maps[16 * MOST_WORDS];
    const size_t room = 16 * (12 + WORST(MOST_WORDS));
    coil_record list[16];
    exam_file f = new_exam_file(32 + room, 11, 10);
    make_words(AIR_MAP, maps, 16 * MOST_WORDS);
    for (uint32_t i = 0; i < 16; i++) {
        coil_record record = { i, (size_t)MOST_WORDS * (15 - i), MOST_WORDS };
        list[i] = record;
    }
    this_case_is("sixteen maps of 65,536 words in one buffer");
    outcome listed = compare_append_all(lend_with_spare(&f, room), list, 16, maps, 16 * MOST_WORDS, tables_of(10),
                                        WORST(MOST_WORDS));
    must_answer(listed, 0);
    must_hold(listed.second == 16, "all went in");
    take_over_list(&f, listed);
    for (uint32_t i = 0; i < 16; i += 5) {
        outcome fetched = compare_fetch(lend_with_spare(&f, 0), i, tables_of(10), MOST_WORDS);
        must_answer(fetched, 0);
        must_hold(memcmp(fetched.words, maps + list[i].first, 8 * MOST_WORDS) == 0, "each map gives its words");
    }
    forget_exam_file(&f);
}

/* Well formed but for the count: 65,537 zeros. Also with 65,535 and 65,536 of them. */
static void one_word_too_many(void)
{
    for (size_t count = MOST_WORDS - 1; count <= MOST_WORDS + 1; count++) {
        size_t length = 8 + (count + 1) / 2;
        memset(block, 0x77, length);
        put_field(block, 4, count);
        put_field(block + 4, 4, length);
        this_case_is("block that declares %zu words", count);
        must_answer(compare_check(block, length), count > MOST_WORDS ? 2 : 0);
        must_answer(compare_unpack(block, length, tables_of(4), count), count > MOST_WORDS ? 2 : 0);
    }
}

/* One residual of so many words is padded: the last, and the first. */
static void padded_in_many_words(size_t count, unsigned last_code)
{
    static uint8_t codes[MOST_WORDS];
    for (size_t i = 0; i < count; i++) {
        codes[i] = (uint8_t)random_below(16);
    }
    codes[0] = 8;
    codes[count - 1] = (uint8_t)last_code;
    size_t length = forge_block_of(block, codes, count), top = residual_at(block, 0) + 7;
    uint8_t kept[2] = { block[length - 2], block[length - 1] };
    this_case_is("%zu words, the last code is %X", count, last_code);
    must_answer(compare_check(block, length), 0);
    must_answer(compare_unpack(block, length, tables_of(9), count), 0);
    pad_residual(block, count - 1);
    must_answer(compare_check(block, length), 13);
    must_answer(compare_unpack(block, length, tables_of(9), count), 13);
    must_answer(compare_unpack(block, length, tables_of(9), count - 1), 13);
    memcpy(block + length - 2, kept, 2);
    must_answer(compare_check(block, length), 0);
    block[top] = 0;
    must_answer(compare_check(block, length), 13);
}

/* ---- Entries ---- */

/* No entry is added, so a full directory is no hindrance. */
static void replace_in_a_full_file(exam_file *f)
{
    static const uint32_t some_slots[] = { 0, 1000, 3006, 3009 };
    for (size_t i = 0; i < sizeof some_slots / sizeof some_slots[0]; i++) {
        this_case_is("slot %u of 1,024 entries replaced", some_slots[i]);
        outcome replaced = compare_replace(lend_with_spare(f, WORST(2)), some_slots[i], words, 2, tables_of(1),
                                           WORST(2));
        must_answer(replaced, 0);
        take_over_replaced(f, replaced);
        must_answer(compare_fetch(lend_with_spare(f, 0), some_slots[i], tables_of(1), 2), 0);
        must_answer(compare_fetch(lend_with_spare(f, 0), 3000, tables_of(1), 2), 0);
    }
    must_answer(compare_replace(lend_with_spare(f, 29), 9000, words, 1, tables_of(1), 17), 10);
    must_answer(compare_replace(lend_with_spare(f, 29), 1, words, 1, tables_of(1), 17), 10);
}

static void most_entries(void)
{
    static const uint8_t empty_block[8] = { 0, 0, 0, 0, 8, 0, 0, 0 };
    exam_file f = new_exam_file(32 + 1026 * 32, 9, 1);
    for (uint32_t slot = 0; f.entries < 1020; slot += 2) {
        add_block(&f, slot, empty_block, 8);
    }
    for (uint32_t slot = 3000; f.entries < 1024; slot += 3) {
        this_case_is("append the entry after %zu", f.entries);
        outcome appended = compare_append(lend_with_spare(&f, 29), slot, words, 1, tables_of(1), 17);
        must_answer(appended, 0);
        take_over(&f, appended);
    }
    this_case_is("file of 1,024 entries");
    must_answer(compare_open(lend_with_spare(&f, 0)), 0);
    must_answer(compare_append(lend_with_spare(&f, 29), 9000, words, 1, tables_of(1), 17), 12);
    must_answer(compare_append(lend_with_spare(&f, 29), 1, words, 1, tables_of(1), 17), 12);
    must_answer(compare_find(lend_with_spare(&f, 0), 0), 0);
    must_answer(compare_find(lend_with_spare(&f, 0), 1000), 0);
    must_answer(compare_find(lend_with_spare(&f, 0), 1001), 10);
    must_answer(compare_fetch(lend_with_spare(&f, 0), 3009, tables_of(1), 1), 0);
    replace_in_a_full_file(&f);
    add_block(&f, 8000, empty_block, 8);
    this_case_is("file of 1,025 entries, right but for that");
    must_answer(compare_open(lend_with_spare(&f, 0)), 7);
    must_answer(compare_find(lend_with_spare(&f, 0), 8000), 7);
    must_answer(compare_append(lend_with_spare(&f, 29), 9000, words, 1, tables_of(1), 17), 7);
    must_answer(compare_replace(lend_with_spare(&f, 29), 8000, words, 1, tables_of(1), 17), 7);
    forget_exam_file(&f);
}

/* ---- 16 MiB ---- */

/* A long block. Its two fields are 0, so it is not well formed; what follows is random, so that a part that does
 * not move with the rest is seen. No byte of that is 0: as residual bytes none would be padding. */
static const uint8_t *filling(void)
{
    static uint8_t *bytes;
    if (bytes == NULL) {
        bytes = calloc(LIMIT + 64, 1);
        must_hold(bytes != NULL, "memory for the filling");
        for (size_t at = 8; at < LIMIT; at += 8) {
            uint64_t any = random_word() | UINT64_C(0x0101010101010101);
            memcpy(bytes + at, &any, 8);
        }
    }
    return bytes;
}

/* A file of exactly that many bytes, with one entry. */
static exam_file file_of_length(size_t length)
{
    exam_file f = new_exam_file(length, 6, 3);
    add_block(&f, 5, filling(), length - 44);
    return f;
}

static void file_at_the_limit(void)
{
    for (size_t length = LIMIT - 1; length <= LIMIT + 1; length++) {
        exam_file f = file_of_length(length);
        uint32_t expected = length > LIMIT ? 7 : 0;
        this_case_is("file of %zu bytes", length);
        must_answer(compare_open(lend_with_spare(&f, 0)), expected);
        must_answer(compare_find(lend_with_spare(&f, 1), 5), expected);
        must_answer(compare_fetch(lend_with_spare(&f, 0), 5, tables_of(3), 9), expected ? 7 : 5);
        must_answer(compare_append(lend_with_spare(&f, 100), 6, words, 1, tables_of(3), 17),
                    expected ? 7 : 3);
        if (length == LIMIT) {
            must_answer(compare_replace(lend_with_spare(&f, 0), 5, words, 1, tables_of(3), 17), 0);
        }
        lent_file beyond = lend_with_spare(&f, 0);
        beyond.buffer--;
        must_answer(compare_open(beyond), 4);
        forget_exam_file(&f);
    }
}

/* An append may reach the limit in the worst case, and not pass it, however large the buffer is. */
static void append_up_to_the_limit(size_t count)
{
    for (size_t beyond = 0; beyond <= 1; beyond++) {
        exam_file f = file_of_length(LIMIT - 12 - WORST(count) + beyond);
        this_case_is("append %zu words, %zu beyond the limit", count, beyond);
        must_answer(compare_append(lend_with_spare(&f, 12 + WORST(count)), 6, words, count, tables_of(3),
                                   WORST(count)), beyond ? 3 : 0);
        must_answer(compare_append(lend_with_spare(&f, 100 + WORST(count)), 6, words, count, tables_of(3),
                                   WORST(count)), beyond ? 3 : 0);
        must_answer(compare_append(lend_with_spare(&f, 11 + WORST(count)), 6, words, count, tables_of(3),
                                   WORST(count)), 3);
        forget_exam_file(&f);
    }
}

/* One record of a list may reach the limit in the worst case, and not pass it. Each before it has no words and takes
 * 20 bytes; those behind it have none either, and find room once it has gone in. */
static void list_up_to_the_limit(size_t count, size_t place)
{
    coil_record list[3] = { { 6, 1, 0 }, { 7, 1, 0 }, { 8, 1, 0 } };
    list[place].count = count;
    make_words(ZEROS, words, 1 + count);
    for (size_t beyond = 0; beyond <= 1; beyond++) {
        exam_file f = file_of_length(LIMIT - 20 * place - 12 - WORST(count) + beyond);
        this_case_is("list with %zu words at %zu, %zu beyond the limit", count, place, beyond);
        outcome listed = compare_append_all(lend_with_spare(&f, 100 + WORST(count)), list, 3, words, 1 + count,
                                            tables_of(3), WORST(count));
        must_answer(listed, beyond ? 3 : 0);
        must_hold(listed.second == (beyond ? place : 3), "as many went in as stay within the limit");
        forget_exam_file(&f);
    }
}

/* Two blocks in a file of exactly that many bytes: a block of 9 bytes in slot 4, and a long one in slot 5. */
static exam_file file_of_two(size_t length)
{
    exam_file f = new_exam_file(length, 6, 3);
    add_block(&f, 4, filling(), 9);
    add_block(&f, 5, filling(), length - 65);
    return f;
}

/* A replace may reach the limit in the worst case, and not pass it, however large the buffer is. It asks for no
 * entry: an append of the same words is refused. */
static void replace_up_to_the_limit(size_t count)
{
    size_t spare = WORST(count) - 9;
    exam_file f = file_of_two(LIMIT - spare);
    this_case_is("replaced by %zu words, up to the limit", count);
    must_answer(compare_replace(lend_with_spare(&f, spare), 4, words, count, tables_of(3), WORST(count)), 0);
    must_answer(compare_append(lend_with_spare(&f, spare + 100), 6, words, count, tables_of(3), WORST(count)), 3);
    forget_exam_file(&f);
    f = file_of_two(LIMIT - spare + 1);
    this_case_is("replaced by %zu words, one byte beyond the limit", count);
    must_answer(compare_replace(lend_with_spare(&f, spare + 100), 4, words, count, tables_of(3), WORST(count)), 3);
    forget_exam_file(&f);
}

/* A short block becomes long, so that a mebibyte moves up, and short again. */
static void move_much(void)
{
    exam_file f = new_exam_file(2 << 20, 6, 3);
    uint8_t mark[20];
    random_bytes(mark, sizeof mark);
    add_block(&f, 5, filling(), 9);
    add_block(&f, 6, filling(), 1 << 20);
    add_block(&f, 7, mark, sizeof mark);
    for (size_t count = 65000; count > 0; count /= 250) {
        this_case_is("much moves for %zu words", count);
        outcome replaced = compare_replace(lend_with_spare(&f, WORST(count)), 5, words, count, tables_of(3),
                                           WORST(count));
        must_answer(replaced, 0);
        take_over_replaced(&f, replaced);
        must_hold(memcmp(f.bytes + get_field(entry_of(&f, 2) + AT_OFFSET, 4), mark, sizeof mark) == 0,
                  "the last block is as it was");
    }
    forget_exam_file(&f);
}

/* ---- A salvage at the limit ---- */

#define FULL WORST(MOST_WORDS)
#define FULL_BLOCKS 30
/* Two shorter blocks end the row: with an entry for each of the 32, and the trailer, the new file is at the limit. */
#define SHORTER (LIMIT - 32 - 12 * (FULL_BLOCKS + 2) - FULL_BLOCKS * FULL)

/* The most words, each with 8 residual bytes. */
static size_t put_full_block(uint8_t *at)
{
    memset(at, 0, 8 + MOST_WORDS / 2);
    put_field(at, 4, MOST_WORDS);
    put_field(at + 4, 4, FULL);
    memcpy(at + 8 + MOST_WORDS / 2, filling() + 8 + random_below(MOST_WORDS), (size_t)8 * MOST_WORDS);
    return FULL;
}

/* Words that are predicted, two for each byte: a block of exactly that many bytes, up to 32,776. */
static size_t put_short_block(uint8_t *at, size_t size)
{
    memset(at, 0x77, size);
    put_field(at, 4, 2 * (size - 8));
    put_field(at + 4, 4, size);
    return size;
}

/* A row of blocks whose new file is so many bytes longer than the limit, and 7 bytes behind it. Answers its length. */
static size_t put_row(uint8_t *row, size_t beyond)
{
    size_t at = 0;
    for (size_t i = 0; i < FULL_BLOCKS; i++) {
        at += put_full_block(row + at);
    }
    at += put_short_block(row + at, SHORTER / 2);
    at += put_short_block(row + at, SHORTER - SHORTER / 2 + beyond);
    memset(row + at, 0, 7);
    return at;
}

/* The new file may reach the limit by its true length, and not pass it, however large the buffer is. What is left over
 * does not count. */
static void salvage_up_to_the_limit(void)
{
    uint8_t *row = malloc(LIMIT);
    must_hold(row != NULL, "memory for a row of blocks");
    size_t size = put_row(row, 0);
    this_case_is("a new file at the limit");
    must_answer(compare_salvage(row, size, LIMIT - 1, 6, 3), 3);
    outcome result = compare_salvage(row, size + 7, LIMIT + 1000, 6, 3);
    must_answer(result, 0);
    must_hold(result.first == LIMIT && result.second == FULL_BLOCKS + 2, "all blocks are kept");
    must_hold(result.left_over == 7, "fewer than 8 bytes are left over");
    exam_file f = new_exam_file(LIMIT, 6, 3);
    memcpy(f.bytes, result.bytes, LIMIT);
    f.length = LIMIT;
    must_answer(compare_open(lend_with_spare(&f, 0)), 0);
    outcome last = compare_find(lend_with_spare(&f, 0), FULL_BLOCKS + 1);
    must_hold(last.answer == 0 && last.first + last.second == size, "the last block is found at the row's end");
    forget_exam_file(&f);
    this_case_is("the last of the full blocks is padded in its last residual");
    row[FULL_BLOCKS * FULL - 1] = 0;
    result = compare_salvage(row, size, LIMIT, 6, 3);
    must_answer(result, 0);
    must_hold(result.second == FULL_BLOCKS - 1 && result.left_over == size - (FULL_BLOCKS - 1) * FULL,
              "it ends the salvage");
    row[FULL_BLOCKS * FULL - 1] = 1;
    this_case_is("one block too many for the limit");
    size += put_short_block(row + size, 8);
    must_answer(compare_salvage(row, size, LIMIT + 1000, 6, 3), 3);
    this_case_is("a new file one byte beyond the limit");
    size = put_row(row, 1);
    must_answer(compare_salvage(row, size, LIMIT + 1000, 6, 3), 3);
    free(row);
}

/* ---- Ends of the numbers ---- */

static void ends_of_slot_and_exam(void)
{
    exam_file f = new_exam_file(200, UINT64_MAX, 0);
    size_t length = forge_block(block, 1);
    add_block(&f, 0, block, length);
    add_block(&f, UINT32_MAX, block, length);
    this_case_is("slots 0 and 2^32 - 1, exam 2^64 - 1");
    must_answer(compare_find(lend_with_spare(&f, 0), 0), 0);
    must_answer(compare_find(lend_with_spare(&f, 0), UINT32_MAX), 0);
    must_answer(compare_find(lend_with_spare(&f, 0), 1), 10);
    must_answer(compare_append(lend_with_spare(&f, 29), 0, words, 1, tables_of(0), 17), 11);
    must_answer(compare_append(lend_with_spare(&f, 29), UINT32_MAX, words, 1, tables_of(0), 17), 11);
    must_answer(compare_replace(lend_with_spare(&f, 29), 0, words, 1, tables_of(0), 17), 0);
    must_answer(compare_replace(lend_with_spare(&f, 29), UINT32_MAX, words, 1, tables_of(0), 17), 0);
    must_answer(compare_replace(lend_with_spare(&f, 29), 1, words, 1, tables_of(0), 17), 10);
    f.exam = UINT32_MAX;
    must_answer(compare_open(lend_with_spare(&f, 0)), 8);
    f.exam = 0;
    must_answer(compare_open(lend_with_spare(&f, 0)), 8);
    put_field(trailer_of(&f) + AT_EXAM, 8, 0);
    this_case_is("exam 0 in the trailer and asked for");
    must_answer(compare_open(lend_with_spare(&f, 0)), 8);
    f.exam = 1;
    must_answer(compare_open(lend_with_spare(&f, 0)), 8);
    forget_exam_file(&f);
}

/* ---- Lengths beyond 32 bits ---- */

/* One region serves both sides: what is tried here is refused, or writes the same bytes twice. */
static void judge_far(const char *call, uint32_t library, uint32_t reference, uint32_t expected)
{
    this_case_is("%s, a length beyond 32 bits", call);
    count_comparison(call, library == expected && reference == expected);
}

#define FAR ((size_t)1 << 32)

static void far_blocks(uint8_t *memory, uint64_t *far_words, uint64_t *more_words)
{
    const size_t far = FAR;
    size_t number = 1;
    uint64_t table[2] = { 0, 0 };
    memcpy(memory, "\1\0\0\0\11\0\0\0\x77", 9);
    judge_far("check", coil_check(memory, far + 9), ref_check(memory, far + 9), 5);
    judge_far("unpack", coil_unpack(memory, far + 9, table, 1, table + 1, 1, words, 1, &number),
              ref_unpack(memory, far + 9, table, 1, table + 1, 1, words, 1, &number), 5);
    judge_far("pack with room", coil_pack(words, 1, table, 1, table + 1, 1, memory, far, &number),
              ref_pack(words, 1, table, 1, table + 1, 1, memory, far, &number), 0);
    judge_far("pack of many words",
              coil_pack(far_words, far + 1, table, 1, table + 1, 1, block, 17, &number),
              ref_pack(far_words, far + 1, table, 1, table + 1, 1, block, 17, &number), 2);
    judge_far("pack with long tables",
              coil_pack(words, 1, far_words, far + 1, more_words, far + 1, block, 17, &number),
              ref_pack(words, 1, far_words, far + 1, more_words, far + 1, block, 17, &number), 1);
    must_hold(number == 0, "a refusal leaves 0");
}

static void far_files(uint8_t *memory)
{
    const size_t far = FAR;
    size_t number = 1;
    exam_file f = new_exam_file(32, 6, 0);
    memcpy(memory, f.bytes, 32);
    judge_far("open", coil_open(memory, far + 32, far + 32, 6), ref_open(memory, far + 32, far + 32, 6), 7);
    judge_far("open in a large buffer", coil_open(memory, far + 31, 32, 6),
              ref_open(memory, far + 31, 32, 6), 0);
    put_field(f.bytes + AT_LENGTH, 8, far + 32);
    memcpy(memory + far, f.bytes, 32);
    judge_far("open", coil_open(memory, far + 32, far + 32, 6), ref_open(memory, far + 32, far + 32, 6), 7);
    judge_far("create", coil_create(memory, far + 1, 6, 0, &number),
              ref_create(memory, far + 1, 6, 0, &number), 0);
    forget_exam_file(&f);
}

/* The word 1 in slot 5 replaced by the word 2, or by many: both blocks have 10 bytes, so that a second time changes
 * nothing more. */
static void far_replace(const char *what, uint32_t expected, uint8_t *memory, size_t buffer, size_t length,
                        const uint64_t *new_words, size_t count, uint64_t *fcm, uint64_t *dfcm, size_t table)
{
    uint8_t bench[17];
    size_t number = 1;
    uint32_t library = coil_replace(memory, buffer, length, 6, 5, new_words, count, fcm, table, dfcm, table,
                                    bench, sizeof bench, &number);
    must_hold(number == (expected ? 0 : 54), "the library's length after a replace");
    uint32_t reference = ref_replace(memory, buffer, length, 6, 5, new_words, count, fcm, table, dfcm, table,
                                     bench, sizeof bench, &number);
    must_hold(number == (expected ? 0 : 54), "the reference's length after a replace");
    judge_far(what, library, reference, expected);
}

static void far_replaces(uint8_t *memory, uint64_t *far_words, uint64_t *more_words)
{
    static const uint8_t one[10] = { 1, 0, 0, 0, 10, 0, 0, 0, 0x67, 1 };
    const size_t far = FAR;
    const uint64_t two = 2;
    uint64_t fcm[1], dfcm[1];
    exam_file f = new_exam_file(54, 6, 0);
    add_block(&f, 5, one, sizeof one);
    memcpy(memory, f.bytes, 54);
    far_replace("replace by many words", 2, memory, far, 54, far_words, far + 1, fcm, dfcm, 1);
    far_replace("replace with long tables", 1, memory, far, 54, &two, 1, far_words, more_words, far + 1);
    far_replace("replace in a long file", 7, memory, far + 54, far + 54, &two, 1, fcm, dfcm, 1);
    far_replace("replace in a large buffer", 0, memory, far + 53, 54, &two, 1, fcm, dfcm, 1);
    must_hold(memory[9] == 2, "the word is replaced");
    forget_exam_file(&f);
}

/* A list for an empty file, once in the library and once in the reference: the number, and how many go in. */
static void far_list(const char *what, uint32_t expected, size_t in, const void *records, size_t records_len,
                     const uint64_t *list_words, size_t words_len)
{
    uint8_t bench[17], file[2][200] = { { 0 }, { 0 } };
    uint64_t table[2] = { 0, 0 };
    size_t appended[2], length[2];
    exam_file f = new_exam_file(32, 6, 0);
    this_case_is("%s", what);
    memcpy(file[0], f.bytes, 32);
    memcpy(file[1], f.bytes, 32);
    uint32_t library = coil_append_all(file[0], 200, 32, 6, records, records_len, list_words, words_len, table, 1,
                                       table + 1, 1, bench, sizeof bench, &appended[0], &length[0]);
    uint32_t reference = ref_append_all(file[1], 200, 32, 6, records, records_len, list_words, words_len, table, 1,
                                        table + 1, 1, bench, sizeof bench, &appended[1], &length[1]);
    must_hold(appended[0] == in && appended[1] == in, "how many go in");
    must_hold(length[0] == length[1] && memcmp(file[0], file[1], 200) == 0, "one file on both sides");
    judge_far(what, library, reference, expected);
    forget_exam_file(&f);
}

/* The last word of many is another than all before it. */
static void far_lists(uint64_t *far_words)
{
    const size_t far = FAR;
    const coil_record last_word = { 5, far, 1 }, beyond = { 5, far + 1, 1 }, all = { 5, 0, far + 1 };
    far_words[far] = UINT64_C(0x123456789ABCDEF);
    far_list("list with the last of many words", 0, 1, &last_word, 1, far_words, far + 1);
    far_list("list with a word behind many", 15, 0, &beyond, 1, far_words, far + 1);
    far_list("list with a word behind one", 15, 0, &last_word, 1, far_words, 1);
    far_list("list with one of many words more", 15, 0, &all, 1, far_words, far);
    far_list("list with all of many words", 2, 0, &all, 1, far_words, far + 1);
    far_words[far] = 0;
}

/* A block of 9 bytes and nothing but zeros behind it, once in the library and once in the reference, each with its own
 * buffer. The new file has 53 bytes. */
static void far_salvage(const char *what, uint32_t expected, const uint8_t *old, size_t old_len,
                        uint8_t *const buffers[2], size_t buffer)
{
    size_t length[2] = { 1, 1 }, kept[2] = { 2, 2 }, left_over[2] = { 1, 1 };
    uint32_t renumbered[2] = { 2, 2 };
    uint32_t library = coil_salvage(old, old_len, buffers[0], buffer, 6, 0, &length[0], &kept[0], &left_over[0],
                                    &renumbered[0]);
    uint32_t reference = ref_salvage(old, old_len, buffers[1], buffer, 6, 0, &length[1], &kept[1], &left_over[1],
                                     &renumbered[1]);
    judge_far(what, library, reference, expected);
    for (unsigned side = 0; side < 2; side++) {
        must_hold(length[side] == (expected ? 0 : 53) && kept[side] == !expected && renumbered[side] == !expected,
                  "the one block is kept, or all is 0");
        must_hold(left_over[side] == (expected ? 0 : old_len - 9), "all behind it is left over");
    }
    must_hold(expected != 0 || memcmp(buffers[0], buffers[1], 53) == 0, "one file on both sides");
}

static void far_salvages(uint8_t *memory, uint64_t *far_words, uint64_t *more_words)
{
    const size_t far = FAR;
    uint8_t *const buffers[2] = { (uint8_t *)far_words, (uint8_t *)more_words };
    memset(memory, 0, 64);
    memcpy(memory, "\1\0\0\0\11\0\0\0\x77", 9);
    far_salvage("salvage of many bytes", 0, memory, far, buffers, 53);
    far_salvage("salvage of many bytes and a few", 0, memory, far + 8, buffers, 53);
    far_salvage("salvage in a large buffer", 0, memory, 9, buffers, far + 52);
    far_salvage("salvage of many bytes in a large buffer", 0, memory, 2 * far, buffers, far);
    far_salvage("salvage of many bytes without room", 3, memory, far + 9, buffers, 52);
}

#define FAR_BYTES (8 * (FAR + 8))

/* The memory is only promised, not used: all but a few pages are never touched. It serves as three lists of words; and
 * before these are written to, as one of records, all for slot 0: the first goes in, and the second is refused. */
static void lengths_beyond_32_bits(void)
{
    uint8_t *memory = mmap(NULL, 3 * FAR_BYTES, PROT_READ | PROT_WRITE,
                           MAP_PRIVATE | MAP_ANONYMOUS | MAP_NORESERVE, -1, 0);
    if (memory == MAP_FAILED) {
        printf("  NOT RUN: lengths beyond 32 bits, as 96 GiB of addresses cannot be had here\n");
        return;
    }
    uint64_t *far_words = (uint64_t *)(void *)(memory + FAR_BYTES);
    uint64_t *more_words = (uint64_t *)(void *)(memory + 2 * FAR_BYTES);
    far_list("list of many records", 11, 1, memory, FAR, words, 1);
    far_blocks(memory, far_words, more_words);
    far_files(memory);
    far_replaces(memory, far_words, more_words);
    far_lists(far_words);
    far_salvages(memory, far_words, more_words);
    munmap(memory, 3 * FAR_BYTES);
}

/* What takes long comes last, so that a slip in what does not is seen soon. */
void group_far(unsigned rounds)
{
    salvage_up_to_the_limit();
    lengths_beyond_32_bits();
    ends_of_slot_and_exam();
    most_entries();
    one_word_too_many();
    padded_in_many_words(MOST_WORDS, 6);
    padded_in_many_words(MOST_WORDS, 3);
    padded_in_many_words(MOST_WORDS - 1, 8);
    padded_in_many_words(MOST_WORDS - 1, 14);
    most_words_in_a_file();
    most_words_in_a_list();
    sixteen_full_maps();
    most_words(rounds);
    make_words(NOISE, words, MOST_WORDS);
    file_at_the_limit();
    append_up_to_the_limit(1);
    append_up_to_the_limit(301);
    replace_up_to_the_limit(301);
    move_much();
    list_up_to_the_limit(301, 0);
    list_up_to_the_limit(3, 1);
    list_up_to_the_limit(301, 1);
    list_up_to_the_limit(301, 2);
}
