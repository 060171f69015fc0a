/* The rules of the store, one after the other, in plain C99. See reference.h.
 *
 * Every "return" with a number below is a line of the rules' table of numbers. The checks stand in
 * the order of the rules. Nothing lent is written before the last check has passed; of a list of records, before the
 * last check of each record.
 */
#include "reference.h"

#include <stdio.h>
#include <stdlib.h>
#include <string.h>

#define MOST_WORDS 65536u
#define MOST_FILE_BYTES 16777216u
#define MOST_ENTRIES 1024u
#define MOST_T 16u
#define BLOCK_HEADER 8u
#define ENTRY 12u
#define TRAILER 32u

static void *room_for(size_t bytes)
{
    void *room = calloc(bytes + 1, 1);
    if (room == NULL) {
        fprintf(stderr, "reference: no memory\n");
        exit(2);
    }
    return room;
}

/* ---- Fields: least significant byte first ---- */

static uint64_t read_field(const uint8_t *at, unsigned bytes)
{
    uint64_t value = 0;
    for (unsigned i = 0; i < bytes; i++) {
        value += (uint64_t)at[i] << (8 * i);
    }
    return value;
}

static void write_field(uint8_t *at, unsigned bytes, uint64_t value)
{
    for (unsigned i = 0; i < bytes; i++) {
        at[i] = (uint8_t)(value >> (8 * i));
    }
}

/* ---- The two predictors ---- */

typedef struct {
    uint64_t entries;   /* 2^t */
    uint64_t *fcm;
    uint64_t *dfcm;
    uint64_t fcm_hash;
    uint64_t dfcm_hash;
    uint64_t last;
} predictors;

/* Own tables, so that the lent ones stay as they are until the call has succeeded. */
static predictors start_predictors(size_t entries)
{
    predictors p;
    p.entries = entries;
    p.fcm = room_for(8 * entries);
    p.dfcm = room_for(8 * entries);
    p.fcm_hash = 0;
    p.dfcm_hash = 0;
    p.last = 0;
    return p;
}

static void hand_over_tables(predictors *p, uint64_t *fcm, uint64_t *dfcm)
{
    for (uint64_t i = 0; i < p->entries; i++) {
        fcm[i] = p->fcm[i];
        dfcm[i] = p->dfcm[i];
    }
    free(p->fcm);
    free(p->dfcm);
}

static uint64_t fcm_prediction(const predictors *p)
{
    return p->fcm[p->fcm_hash];
}

static uint64_t dfcm_prediction(const predictors *p)
{
    return p->dfcm[p->dfcm_hash] + p->last;
}

static void learn(predictors *p, uint64_t v)
{
    uint64_t d = v - p->last;
    p->fcm[p->fcm_hash] = v;
    p->dfcm[p->dfcm_hash] = d;
    p->fcm_hash = ((p->fcm_hash << 6) ^ (v >> 48)) % p->entries;
    p->dfcm_hash = ((p->dfcm_hash << 2) ^ (d >> 40)) % p->entries;
    p->last = v;
}

/* ---- Code and residual bytes ---- */

static unsigned leading_zero_bits(uint64_t residual)
{
    unsigned zero_bits = 0;
    while (zero_bits < 64 && (residual >> (63 - zero_bits)) % 2 == 0) {
        zero_bits++;
    }
    return zero_bits;
}

static unsigned leading_zero_bytes(uint64_t residual)
{
    unsigned zero_bytes = 0;
    while (zero_bytes < 8 && (residual >> (8 * (7 - zero_bytes))) % 256 == 0) {
        zero_bytes++;
    }
    return zero_bytes;
}

/* The rule. */
static int more_zero_bits(uint64_t fcm_residual, uint64_t dfcm_residual)
{
    return leading_zero_bits(dfcm_residual) > leading_zero_bits(fcm_residual);
}

/* The rule before request L2. */
static int more_zero_bytes(uint64_t fcm_residual, uint64_t dfcm_residual)
{
    return leading_zero_bytes(dfcm_residual) > leading_zero_bytes(fcm_residual);
}

/* zero bytes:                             0  1  2  3  4  5  6  7  8 */
static const unsigned code_low_bits[9] = { 0, 1, 2, 3, 3, 4, 5, 6, 7 };
/* low bits:                               0  1  2  3  4  5  6  7 */
static const unsigned bytes_written[8] = { 8, 7, 6, 5, 3, 2, 1, 0 };

static unsigned low_bits_for(uint64_t residual)
{
    return code_low_bits[leading_zero_bytes(residual)];
}

#define DFCM_BIT 8u
#define FILLER 7u

/* ---- Block ---- */

static uint64_t code_bytes(uint64_t count)
{
    return (count + 1) / 2;
}

static uint64_t worst_length(uint64_t count)
{
    return BLOCK_HEADER + code_bytes(count) + 8 * count;
}

static unsigned read_code(const uint8_t *block, uint64_t index)
{
    unsigned pair = block[BLOCK_HEADER + index / 2];
    return index % 2 == 0 ? pair / 16 : pair % 16;
}

static void write_code(uint8_t *block, uint64_t index, unsigned code)
{
    block[BLOCK_HEADER + index / 2] |= (uint8_t)(index % 2 == 0 ? 16 * code : code);
}

static uint32_t refuse_tables(size_t fcm_len, size_t dfcm_len)
{
    if (fcm_len != dfcm_len) {
        return 1;
    }
    for (unsigned t = 0; t <= MOST_T; t++) {
        if (fcm_len == (size_t)1 << t) {
            return 0;
        }
    }
    return 1;
}

/* Request L6, of one code and the bytes written for it: the top residual byte is 0; for low bits 3 the two top bytes
 * are. Residual bytes go low byte first, so the top one is the last. Low bits 7 have none. */
static int is_padded(unsigned low_bits, const uint8_t *residual)
{
    unsigned written = bytes_written[low_bits];
    if (low_bits == 7) {
        return 0;
    }
    if (low_bits == 3) {
        return residual[written - 1] == 0 && residual[written - 2] == 0;
    }
    return residual[written - 1] == 0;
}

/* Code by code, from the first residual byte on. The filler is no code. */
static int has_padded_residual(const uint8_t *block, uint64_t count)
{
    uint64_t at = BLOCK_HEADER + code_bytes(count);
    for (uint64_t i = 0; i < count; i++) {
        unsigned low_bits = read_code(block, i) % 8;
        if (is_padded(low_bits, block + at)) {
            return 1;
        }
        at += bytes_written[low_bits];
    }
    return 0;
}

static uint32_t refuse_block(const uint8_t *block, size_t block_len, uint64_t *count)
{
    if (block_len < BLOCK_HEADER) {
        return 4;
    }
    uint64_t declared = read_field(block, 4);
    if (declared > MOST_WORDS) {
        return 2;
    }
    if (read_field(block + 4, 4) != block_len) {
        return 5;
    }
    uint64_t expected = BLOCK_HEADER + code_bytes(declared);
    if (expected > block_len) {
        return 5;
    }
    for (uint64_t i = 0; i < declared; i++) {
        expected += bytes_written[read_code(block, i) % 8];
    }
    if (expected != block_len) {
        return 5;
    }
    if (declared % 2 == 1 && read_code(block, declared) != FILLER) {
        return 6;
    }
    if (has_padded_residual(block, declared)) {
        return 13;
    }
    *count = declared;
    return 0;
}

/* Writes the block of the words into a room of at least worst_length bytes, all zero, and answers its
 * length. */
static size_t write_block(uint8_t *block, const uint64_t *words, size_t words_len, predictors *p,
                          ref_choice *dfcm_chosen, ref_low_bits *low_bits_of)
{
    uint64_t at = BLOCK_HEADER + code_bytes(words_len);
    for (size_t i = 0; i < words_len; i++) {
        uint64_t fcm_residual = words[i] ^ fcm_prediction(p);
        uint64_t dfcm_residual = words[i] ^ dfcm_prediction(p);
        int dfcm_is_chosen = dfcm_chosen(fcm_residual, dfcm_residual);
        uint64_t residual = dfcm_is_chosen ? dfcm_residual : fcm_residual;
        unsigned low_bits = low_bits_of(residual);
        write_code(block, i, low_bits + (dfcm_is_chosen ? DFCM_BIT : 0));
        write_field(block + at, bytes_written[low_bits], residual);
        at += bytes_written[low_bits];
        learn(p, words[i]);
    }
    if (words_len % 2 == 1) {
        write_code(block, words_len, FILLER);
    }
    write_field(block, 4, words_len);
    write_field(block + 4, 4, at);
    return at;
}

static void read_block(const uint8_t *block, uint64_t count, uint64_t *words, predictors *p)
{
    uint64_t at = BLOCK_HEADER + code_bytes(count);
    for (uint64_t i = 0; i < count; i++) {
        unsigned code = read_code(block, i);
        uint64_t prediction = code >= DFCM_BIT ? dfcm_prediction(p) : fcm_prediction(p);
        words[i] = prediction ^ read_field(block + at, bytes_written[code % 8]);
        at += bytes_written[code % 8];
        learn(p, words[i]);
    }
}

/* Packs after every check has passed: fills the tables and the first bytes of out. */
size_t ref_pack_as(const uint64_t *words, size_t words_len, uint64_t *fcm, uint64_t *dfcm, size_t entries,
                   uint8_t *out, ref_choice *dfcm_chosen, ref_low_bits *low_bits_of)
{
    predictors p = start_predictors(entries);
    uint8_t *block = room_for(worst_length(words_len));
    size_t length = write_block(block, words, words_len, &p, dfcm_chosen, low_bits_of);
    memcpy(out, block, length);
    free(block);
    hand_over_tables(&p, fcm, dfcm);
    return length;
}

static size_t pack_now(const uint64_t *words, size_t words_len, uint64_t *fcm, uint64_t *dfcm,
                       size_t entries, uint8_t *out, ref_choice *dfcm_chosen)
{
    return ref_pack_as(words, words_len, fcm, dfcm, entries, out, dfcm_chosen, low_bits_for);
}

/* ---- Calls on a block ---- */

uint32_t ref_check(const uint8_t *block, size_t block_len)
{
    uint64_t count;
    return refuse_block(block, block_len, &count);
}

uint32_t ref_pack(const uint64_t *words, size_t words_len,
                  uint64_t *fcm, size_t fcm_len, uint64_t *dfcm, size_t dfcm_len,
                  uint8_t *out, size_t out_len, size_t *length)
{
    *length = 0;
    if (refuse_tables(fcm_len, dfcm_len)) {
        return 1;
    }
    if (words_len > MOST_WORDS) {
        return 2;
    }
    if (out_len < worst_length(words_len)) {
        return 3;
    }
    *length = pack_now(words, words_len, fcm, dfcm, fcm_len, out, more_zero_bits);
    return 0;
}

size_t ref_pack_before(const uint64_t *words, size_t words_len, uint64_t *fcm, uint64_t *dfcm,
                       size_t entries, uint8_t *out)
{
    return pack_now(words, words_len, fcm, dfcm, entries, out, more_zero_bytes);
}

uint32_t ref_unpack(const uint8_t *block, size_t block_len,
                    uint64_t *fcm, size_t fcm_len, uint64_t *dfcm, size_t dfcm_len,
                    uint64_t *words, size_t words_len, size_t *count)
{
    *count = 0;
    if (refuse_tables(fcm_len, dfcm_len)) {
        return 1;
    }
    uint64_t declared = 0;
    uint32_t refusal = refuse_block(block, block_len, &declared);
    if (refusal) {
        return refusal;
    }
    if (words_len < declared) {
        return 3;
    }
    predictors p = start_predictors(fcm_len);
    read_block(block, declared, words, &p);
    hand_over_tables(&p, fcm, dfcm);
    *count = declared;
    return 0;
}

/* ---- Exam file ---- */

typedef struct {
    uint64_t t;
    uint64_t entries;
    uint64_t directory;   /* where the directory starts */
} opened_file;

static uint64_t entry_slot(const uint8_t *file, const opened_file *f, uint64_t index)
{
    return read_field(file + f->directory + ENTRY * index, 4);
}

static uint64_t entry_offset(const uint8_t *file, const opened_file *f, uint64_t index)
{
    return read_field(file + f->directory + ENTRY * index + 4, 4);
}

static uint64_t entry_length(const uint8_t *file, const opened_file *f, uint64_t index)
{
    return read_field(file + f->directory + ENTRY * index + 8, 4);
}

static void write_trailer(uint8_t *at, uint64_t t, uint64_t exam, uint64_t entries, uint64_t length)
{
    memcpy(at, "coil", 4);
    write_field(at + 4, 2, 1);
    write_field(at + 6, 2, t);
    write_field(at + 8, 8, exam);
    write_field(at + 16, 4, TRAILER + ENTRY * entries);
    write_field(at + 20, 4, entries);
    write_field(at + 24, 8, length);
}

/* Every rule of the trailer but the exam number. */
static int trailer_is_right(const uint8_t *trailer, uint64_t length)
{
    uint64_t edition = read_field(trailer + 4, 2);
    uint64_t t = read_field(trailer + 6, 2);
    uint64_t distance = read_field(trailer + 16, 4);
    uint64_t entries = read_field(trailer + 20, 4);
    return memcmp(trailer, "coil", 4) == 0
        && edition == 1
        && t <= MOST_T
        && entries <= MOST_ENTRIES
        && distance == TRAILER + ENTRY * entries
        && distance <= length
        && read_field(trailer + 24, 8) == length;
}

static int directory_is_right(const uint8_t *file, const opened_file *f)
{
    uint64_t next_offset = 0;
    for (uint64_t i = 0; i < f->entries; i++) {
        if (i > 0 && entry_slot(file, f, i) <= entry_slot(file, f, i - 1)) {
            return 0;
        }
        if (entry_offset(file, f, i) != next_offset) {
            return 0;
        }
        if (entry_length(file, f, i) < BLOCK_HEADER) {
            return 0;
        }
        next_offset = entry_offset(file, f, i) + entry_length(file, f, i);
    }
    return next_offset == f->directory;
}

static uint32_t open_file(const uint8_t *file, size_t file_len, size_t length, uint64_t exam,
                          opened_file *f)
{
    if (length < TRAILER) {
        return 4;
    }
    if (length > file_len) {
        return 4;
    }
    if (length > MOST_FILE_BYTES) {
        return 7;
    }
    const uint8_t *trailer = file + (length - TRAILER);
    if (!trailer_is_right(trailer, length)) {
        return 7;
    }
    if (read_field(trailer + 8, 8) == 0) {
        return 8;
    }
    if (read_field(trailer + 8, 8) != exam) {
        return 8;
    }
    f->t = read_field(trailer + 6, 2);
    f->entries = read_field(trailer + 20, 4);
    f->directory = length - read_field(trailer + 16, 4);
    if (!directory_is_right(file, f)) {
        return 9;
    }
    return 0;
}

static uint32_t find_slot(const uint8_t *file, size_t file_len, size_t length, uint64_t exam,
                          uint32_t slot, opened_file *f, uint64_t *index)
{
    uint32_t refusal = open_file(file, file_len, length, exam, f);
    if (refusal) {
        return refusal;
    }
    for (uint64_t i = 0; i < f->entries; i++) {
        if (entry_slot(file, f, i) == slot) {
            *index = i;
            return 0;
        }
    }
    return 10;
}

static uint32_t refuse_file_tables(const opened_file *f, size_t fcm_len, size_t dfcm_len)
{
    if (refuse_tables(fcm_len, dfcm_len)) {
        return 1;
    }
    if (fcm_len != (size_t)1 << f->t) {
        return 1;
    }
    return 0;
}

/* ---- Calls on a file ---- */

uint32_t ref_create(uint8_t *file, size_t file_len, uint64_t exam, uint32_t t, size_t *length)
{
    *length = 0;
    if (exam == 0) {
        return 8;
    }
    if (t > MOST_T) {
        return 7;
    }
    if (file_len < TRAILER) {
        return 3;
    }
    write_trailer(file, t, exam, 0, TRAILER);
    *length = TRAILER;
    return 0;
}

uint32_t ref_open(const uint8_t *file, size_t file_len, size_t length, uint64_t exam)
{
    opened_file f;
    return open_file(file, file_len, length, exam, &f);
}

uint32_t ref_find(const uint8_t *file, size_t file_len, size_t length, uint64_t exam, uint32_t slot,
                  size_t *offset, size_t *block_length)
{
    opened_file f;
    uint64_t index = 0;
    *offset = 0;
    *block_length = 0;
    uint32_t refusal = find_slot(file, file_len, length, exam, slot, &f, &index);
    if (refusal) {
        return refusal;
    }
    *offset = entry_offset(file, &f, index);
    *block_length = entry_length(file, &f, index);
    return 0;
}

uint32_t ref_fetch(const uint8_t *file, size_t file_len, size_t length, uint64_t exam, uint32_t slot,
                   uint64_t *fcm, size_t fcm_len, uint64_t *dfcm, size_t dfcm_len,
                   uint64_t *words, size_t words_len, size_t *count)
{
    opened_file f;
    uint64_t index = 0;
    *count = 0;
    uint32_t refusal = find_slot(file, file_len, length, exam, slot, &f, &index);
    if (refusal) {
        return refusal;
    }
    if (refuse_file_tables(&f, fcm_len, dfcm_len)) {
        return 1;
    }
    return ref_unpack(file + entry_offset(file, &f, index), entry_length(file, &f, index),
                      fcm, fcm_len, dfcm, dfcm_len, words, words_len, count);
}

static uint32_t refuse_append(const uint8_t *file, size_t file_len, size_t length, const opened_file *f,
                              uint32_t slot, size_t words_len, size_t fcm_len, size_t dfcm_len,
                              size_t bench_len)
{
    if (f->entries >= MOST_ENTRIES) {
        return 12;
    }
    if (f->entries > 0 && slot <= entry_slot(file, f, f->entries - 1)) {
        return 11;
    }
    if (refuse_file_tables(f, fcm_len, dfcm_len)) {
        return 1;
    }
    if (words_len > MOST_WORDS) {
        return 2;
    }
    uint64_t limit = file_len < MOST_FILE_BYTES ? file_len : MOST_FILE_BYTES;
    if (length + ENTRY + worst_length(words_len) > limit) {
        return 3;
    }
    if (bench_len < worst_length(words_len)) {
        return 3;
    }
    return 0;
}

/* Writes blocks, new block, old directory, new entry and trailer, in the order of the file. */
static size_t put_block_in(uint8_t *file, const opened_file *f, uint64_t exam, uint32_t slot,
                           const uint8_t *block, size_t block_length)
{
    size_t old_directory_bytes = ENTRY * f->entries;
    uint8_t *old_directory = room_for(old_directory_bytes);
    memcpy(old_directory, file + f->directory, old_directory_bytes);

    size_t at = f->directory;
    memcpy(file + at, block, block_length);
    at += block_length;
    memcpy(file + at, old_directory, old_directory_bytes);
    at += old_directory_bytes;
    write_field(file + at, 4, slot);
    write_field(file + at + 4, 4, f->directory);
    write_field(file + at + 8, 4, block_length);
    at += ENTRY;
    write_trailer(file + at, f->t, exam, f->entries + 1, at + TRAILER);
    free(old_directory);
    return at + TRAILER;
}

uint32_t ref_append(uint8_t *file, size_t file_len, size_t length, uint64_t exam, uint32_t slot,
                    const uint64_t *words, size_t words_len,
                    uint64_t *fcm, size_t fcm_len, uint64_t *dfcm, size_t dfcm_len,
                    uint8_t *bench, size_t bench_len, size_t *new_length)
{
    opened_file f;
    *new_length = 0;
    uint32_t refusal = open_file(file, file_len, length, exam, &f);
    if (refusal) {
        return refusal;
    }
    refusal = refuse_append(file, file_len, length, &f, slot, words_len, fcm_len, dfcm_len, bench_len);
    if (refusal) {
        return refusal;
    }
    size_t block_length = pack_now(words, words_len, fcm, dfcm, fcm_len, bench, more_zero_bits);
    *new_length = put_block_in(file, &f, exam, slot, bench, block_length);
    return 0;
}

/* First word plus count above the length of the word buffer. The two are not added up: the sum could wrap. */
static int beyond_the_words(const ref_record *record, size_t words_len)
{
    return record->first > words_len || record->count > words_len - record->first;
}

/* One append after another, up to the first refusal. What went in before it stays, and is answered. */
uint32_t ref_append_all(uint8_t *file, size_t file_len, size_t length, uint64_t exam,
                        const ref_record *records, size_t records_len,
                        const uint64_t *words, size_t words_len,
                        uint64_t *fcm, size_t fcm_len, uint64_t *dfcm, size_t dfcm_len,
                        uint8_t *bench, size_t bench_len, size_t *appended, size_t *new_length)
{
    opened_file f;
    size_t reached = length;
    *new_length = 0;
    *appended = 0;
    uint32_t refusal = open_file(file, file_len, length, exam, &f);
    if (refusal) {
        return refusal;
    }
    for (size_t i = 0; i < records_len; i++) {
        if (beyond_the_words(&records[i], words_len)) {
            return 15;
        }
        refusal = ref_append(file, file_len, reached, exam, records[i].slot,
                             words + records[i].first, records[i].count,
                             fcm, fcm_len, dfcm, dfcm_len, bench, bench_len, &reached);
        if (refusal) {
            return refusal;
        }
        *appended = i + 1;
        *new_length = reached;
    }
    *new_length = reached;
    return 0;
}

/* The checks after find's. The entry is there already, so no room is asked for one. */
static uint32_t refuse_replace(const opened_file *found, uint64_t old_size, size_t file_len, size_t length,
                               size_t words_len, size_t fcm_len, size_t dfcm_len, size_t bench_len)
{
    if (refuse_file_tables(found, fcm_len, dfcm_len)) {
        return 1;
    }
    if (words_len > MOST_WORDS) {
        return 2;
    }
    uint64_t at_worst = length - old_size + worst_length(words_len);
    if (at_worst > file_len) {
        return 3;
    }
    if (at_worst > MOST_FILE_BYTES) {
        return 3;
    }
    if (worst_length(words_len) > bench_len) {
        return 3;
    }
    return 0;
}

/* Exchanges a block. What stands from it to the file's end is put together in a second buffer, in the order of
 * the file: the new block, the later blocks, the directory, the trailer. What stands before it stays. */
static size_t put_block_in_place(uint8_t *file, size_t length, const opened_file *found, uint64_t index,
                                 const uint8_t *block, size_t new_size)
{
    uint64_t offset = entry_offset(file, found, index);
    uint64_t old_size = entry_length(file, found, index);
    size_t behind = length - (offset + old_size);
    size_t new_end = offset + new_size + behind;
    uint8_t *rest = room_for(new_size + behind);
    memcpy(rest, block, new_size);
    memcpy(rest + new_size, file + offset + old_size, behind);

    uint8_t *trailer = rest + new_size + behind - TRAILER;
    uint8_t *directory = trailer - ENTRY * found->entries;
    write_field(directory + ENTRY * index + 8, 4, new_size);
    for (uint64_t later = index + 1; later < found->entries; later++) {
        uint64_t old_offset = entry_offset(file, found, later);
        write_field(directory + ENTRY * later + 4, 4, old_offset - old_size + new_size);
    }
    write_field(trailer + 24, 8, new_end);

    memcpy(file + offset, rest, new_size + behind);
    for (size_t freed = new_end; freed < length; freed++) {
        file[freed] = 0;
    }
    free(rest);
    return new_end;
}

uint32_t ref_replace(uint8_t *file, size_t file_len, size_t length, uint64_t exam, uint32_t slot,
                     const uint64_t *words, size_t words_len,
                     uint64_t *fcm, size_t fcm_len, uint64_t *dfcm, size_t dfcm_len,
                     uint8_t *bench, size_t bench_len, size_t *new_length)
{
    opened_file found;
    uint64_t index = 0;
    *new_length = 0;
    uint32_t refusal = find_slot(file, file_len, length, exam, slot, &found, &index);
    if (refusal) {
        return refusal;
    }
    refusal = refuse_replace(&found, entry_length(file, &found, index), file_len, length, words_len,
                             fcm_len, dfcm_len, bench_len);
    if (refusal) {
        return refusal;
    }
    size_t new_size = pack_now(words, words_len, fcm, dfcm, fcm_len, bench, more_zero_bits);
    *new_length = put_block_in_place(file, length, &found, index, bench, new_size);
    return 0;
}

/* ---- Salvage ---- */

/* The length of the block that stands whole at the start of these bytes. 0 where none does: no block is so short. */
static size_t whole_block_at(const uint8_t *bytes, size_t left)
{
    uint64_t count;
    if (left < BLOCK_HEADER) {
        return 0;
    }
    uint64_t stated = read_field(bytes + 4, 4);
    if (stated > left) {
        return 0;
    }
    if (refuse_block(bytes, stated, &count)) {
        return 0;
    }
    return stated;
}

/* Blocks that stand one behind the other from the first byte on. */
typedef struct {
    size_t blocks;
    size_t bytes;
} row_of_blocks;

static row_of_blocks whole_blocks(const uint8_t *old, size_t old_len)
{
    row_of_blocks row = { 0, 0 };
    while (row.blocks < MOST_ENTRIES) {
        size_t next = whole_block_at(old + row.bytes, old_len - row.bytes);
        if (next == 0) {
            break;
        }
        row.blocks++;
        row.bytes += next;
    }
    return row;
}

/* The new file's length is known by now: its true one is asked for, not the longest there could be. */
static uint32_t refuse_salvage(uint64_t new_exam, uint32_t new_t, size_t needed, size_t file_len)
{
    if (new_exam == 0) {
        return 8;
    }
    if (new_t > MOST_T) {
        return 7;
    }
    if (needed > file_len) {
        return 3;
    }
    if (needed > MOST_FILE_BYTES) {
        return 3;
    }
    return 0;
}

/* Writes the blocks as they stood, an entry for each, and the trailer, in the order of the file. */
static void write_salvaged(uint8_t *file, const uint8_t *old, row_of_blocks row, size_t needed,
                           uint64_t new_exam, uint32_t new_t)
{
    uint8_t *entry = file + row.bytes;
    uint64_t offset = 0;
    memcpy(file, old, row.bytes);
    for (uint64_t slot = 0; slot < row.blocks; slot++) {
        uint64_t size = read_field(old + offset + 4, 4);
        write_field(entry, 4, slot);
        write_field(entry + 4, 4, offset);
        write_field(entry + 8, 4, size);
        entry += ENTRY;
        offset += size;
    }
    write_trailer(entry, new_t, new_exam, row.blocks, needed);
}

uint32_t ref_salvage(const uint8_t *old, size_t old_len, uint8_t *file, size_t file_len,
                     uint64_t new_exam, uint32_t new_t,
                     size_t *new_length, size_t *kept, size_t *left_over, uint32_t *renumbered)
{
    *new_length = 0;
    *kept = 0;
    *left_over = 0;
    *renumbered = 0;
    row_of_blocks row = whole_blocks(old, old_len);
    size_t needed = row.bytes + ENTRY * row.blocks + TRAILER;
    uint32_t refusal = refuse_salvage(new_exam, new_t, needed, file_len);
    if (refusal) {
        return refusal;
    }
    write_salvaged(file, old, row, needed, new_exam, new_t);
    *new_length = needed;
    *kept = row.blocks;
    *left_over = old_len - row.bytes;
    *renumbered = 1;
    return 0;
}
