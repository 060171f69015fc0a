/* The worked cases, and what each call refuses. Prints what went in and what came out, a line for each case.
 *
 * worked.expected has what must be printed. It was written by hand and with an implementation that is neither the
 * library nor the reference, so this is more than a comparison of the two. Words and bytes are in hex, all other
 * numbers in decimal. Room and tables are lent as long as a line says; compare looks at what lies around them.
 */
#include "coil.h"
#include "hex.h"

#include <stdio.h>
#include <string.h>

#define MOST_TABLE 131072u          /* one size above the largest table there may be */
#define NOT_ANSWERED 99u            /* in each lent number before a call, so that a call that leaves it is seen */

static uint64_t fcm[MOST_TABLE];
static uint64_t dfcm[MOST_TABLE];
static const uint64_t many_words[COIL_MOST_WORDS + 1];
static const uint64_t zero[1] = { 0 };
static const uint64_t one[7] = { 1, 1, 1, 1, 1, 1, 1 };
static const uint64_t ramp[3] = { 1, 2, 3 };
static const uint64_t full[2] = { UINT64_MAX, 0 };
static const uint64_t ramp_and_zero[4] = { 1, 2, 3, 0 };

/* The file of a group of cases. The buffer is lent with file_len bytes. */
static uint8_t file[128];
static size_t file_len;
static uint8_t bench[128];

/* ---- Printing ---- */

static void print_bytes(const uint8_t *bytes, size_t count)
{
    for (size_t i = 0; i < count; i++) {
        printf(" %02x", bytes[i]);
    }
}

static void print_words(const uint64_t *words, size_t count)
{
    for (size_t i = 0; i < count; i++) {
        printf(" %llx", (unsigned long long)words[i]);
    }
}

/* Too many bytes for a line are only counted. */
static void print_given_bytes(const uint8_t *bytes, size_t count)
{
    if (count == 0) {
        printf(" no bytes");
    } else if (count > 64) {
        printf(" %zu bytes", count);
    } else {
        print_bytes(bytes, count);
    }
}

/* Too many words for a line are only counted. */
static void print_given_words(const uint64_t *words, size_t count)
{
    if (count == 0) {
        printf(" no words");
    } else if (count > 8) {
        printf(" %zu words", count);
    } else {
        print_words(words, count);
    }
}

/* Too many records for a line are only counted. */
static void print_records(const coil_record *records, size_t count)
{
    if (count == 0 || count > 8) {
        printf(" %zu records,", count);
        return;
    }
    for (size_t i = 0; i < count; i++) {
        printf(" slot %u first %zu count %zu,", (unsigned)records[i].slot, records[i].first, records[i].count);
    }
}

/* Where a call answers more than there is room for, its number is printed, and nothing outside the room. */
static size_t at_most(size_t room, size_t answered)
{
    return answered < room ? answered : room;
}

/* ---- The calls on blocks ---- */

/* What the tables hold before a group of cases. A call must clear it. */
static void fill_tables(uint64_t in_fcm, uint64_t in_dfcm)
{
    for (size_t i = 0; i < MOST_TABLE; i++) {
        fcm[i] = in_fcm;
        dfcm[i] = in_dfcm;
    }
}

/* Packs words into room for 64 bytes. */
static void pack(const uint64_t *words, size_t count, size_t fcm_len, size_t dfcm_len)
{
    uint8_t out[64];
    size_t length = NOT_ANSWERED;
    memset(out, 0xEE, sizeof out);
    printf("pack");
    print_given_words(words, count);
    printf(", tables of %zu and %zu", fcm_len, dfcm_len);
    uint32_t answer = coil_pack(words, count, fcm, fcm_len, dfcm, dfcm_len, out, sizeof out, &length);
    printf(": answers %u, length %zu", (unsigned)answer, length);
    print_bytes(out, at_most(sizeof out, length));
    printf("\n");
}

static void check_bytes(const uint8_t *block, size_t length)
{
    printf("check");
    print_given_bytes(block, length);
    printf(": answers %u\n", (unsigned)coil_check(block, length));
}

static void check(const char *hex)
{
    uint8_t block[32] = { 0 };
    size_t length = from_hex(hex, block);
    check_bytes(block, length);
}

/* Unpacks into room for at most 3 words. */
static void unpack(const char *hex, size_t fcm_len, size_t dfcm_len, size_t room)
{
    uint8_t block[16] = { 0 };
    uint64_t words[3] = { 0xEE, 0xEE, 0xEE };
    size_t length = from_hex(hex, block), count = NOT_ANSWERED;
    printf("unpack");
    print_given_bytes(block, length);
    printf(", tables of %zu and %zu, room for %zu", fcm_len, dfcm_len, room);
    uint32_t answer = coil_unpack(block, length, fcm, fcm_len, dfcm, dfcm_len, words, room, &count);
    printf(": answers %u, count %zu", (unsigned)answer, count);
    print_words(words, at_most(room, count));
    printf("\n");
}

/* ---- The calls on files ---- */

static void create(uint64_t exam, uint32_t t)
{
    size_t length = NOT_ANSWERED;
    printf("create exam %llu, t %u, in %zu bytes", (unsigned long long)exam, (unsigned)t, file_len);
    uint32_t answer = coil_create(file, file_len, exam, t, &length);
    printf(": answers %u, length %zu\n", (unsigned)answer, length);
}

static void open_file(size_t length, uint64_t exam)
{
    printf("open %zu bytes for exam %llu", length, (unsigned long long)exam);
    printf(": answers %u\n", (unsigned)coil_open(file, file_len, length, exam));
}

/* A call that packs words into a file: append or replace. */
typedef uint32_t store_call(uint8_t *, size_t, size_t, uint64_t, uint32_t, const uint64_t *, size_t,
                            uint64_t *, size_t, uint64_t *, size_t, uint8_t *, size_t, size_t *);

static void store(store_call *call, size_t length, uint64_t exam, uint32_t slot, const uint64_t *words, size_t count,
                  size_t fcm_len, size_t dfcm_len, size_t bench_len)
{
    size_t new_length = NOT_ANSWERED;
    print_given_words(words, count);
    printf(", tables of %zu and %zu, buffer %zu, bench %zu", fcm_len, dfcm_len, file_len, bench_len);
    uint32_t answer = call(file, file_len, length, exam, slot, words, count, fcm, fcm_len,
                           dfcm, dfcm_len, bench, bench_len, &new_length);
    printf(": answers %u, length %zu\n", (unsigned)answer, new_length);
}

static void append(size_t length, uint64_t exam, uint32_t slot, const uint64_t *words, size_t count,
                   size_t fcm_len, size_t dfcm_len, size_t bench_len)
{
    printf("append slot %u to exam %llu, words", (unsigned)slot, (unsigned long long)exam);
    store(coil_append, length, exam, slot, words, count, fcm_len, dfcm_len, bench_len);
}

/* Appends the one word 0 with tables of 2 words. */
static void append_zero(size_t length, uint64_t exam, uint32_t slot, size_t bench_len)
{
    append(length, exam, slot, zero, 1, 2, 2, bench_len);
}

static void replace(size_t length, uint64_t exam, uint32_t slot, const uint64_t *words, size_t count,
                    size_t fcm_len, size_t dfcm_len, size_t bench_len)
{
    printf("replace slot %u of exam %llu in %zu bytes, words", (unsigned)slot, (unsigned long long)exam, length);
    store(coil_replace, length, exam, slot, words, count, fcm_len, dfcm_len, bench_len);
}

/* Replaces by the one word 1 with tables of 2 words. */
static void replace_by_one(size_t length, uint64_t exam, uint32_t slot, size_t bench_len)
{
    replace(length, exam, slot, one, 1, 2, 2, bench_len);
}

/* What a list is lent beside its records. */
typedef struct {
    size_t length;
    uint64_t exam;
    const uint64_t *words;
    size_t words_len, fcm_len, dfcm_len, bench_len;
} list_lent;

static void append_all(uint8_t *to, size_t to_len, list_lent lent, const coil_record *records, size_t records_len)
{
    size_t appended = NOT_ANSWERED, new_length = NOT_ANSWERED;
    printf("append_all to exam %llu in %zu bytes,", (unsigned long long)lent.exam, lent.length);
    print_records(records, records_len);
    printf(" words");
    print_given_words(lent.words, lent.words_len);
    printf(", tables of %zu and %zu, buffer %zu, bench %zu", lent.fcm_len, lent.dfcm_len, to_len, lent.bench_len);
    uint32_t answer = coil_append_all(to, to_len, lent.length, lent.exam, records, records_len, lent.words,
                                      lent.words_len, fcm, lent.fcm_len, dfcm, lent.dfcm_len, bench, lent.bench_len,
                                      &appended, &new_length);
    printf(": answers %u, appended %zu, length %zu\n", (unsigned)answer, appended, new_length);
}

/* A list of one record, and of two. */
static void append_one(list_lent lent, uint32_t slot, size_t first, size_t count)
{
    const coil_record record = { slot, first, count };
    append_all(file, file_len, lent, &record, 1);
}

static void append_two(list_lent lent, uint32_t slot, size_t first, size_t count,
                       uint32_t next_slot, size_t next_first, size_t next_count)
{
    const coil_record records[2] = { { slot, first, count }, { next_slot, next_first, next_count } };
    append_all(file, file_len, lent, records, 2);
}

static void salvage_bytes(const uint8_t *old, size_t old_len, uint8_t *to, size_t to_len, uint64_t exam, uint32_t t)
{
    size_t new_length = NOT_ANSWERED, kept = NOT_ANSWERED, left_over = NOT_ANSWERED;
    uint32_t renumbered = NOT_ANSWERED;
    printf("salvage");
    print_given_bytes(old, old_len);
    printf(", exam %llu, t %u, in %zu bytes", (unsigned long long)exam, (unsigned)t, to_len);
    uint32_t answer = coil_salvage(old, old_len, to, to_len, exam, t, &new_length, &kept, &left_over, &renumbered);
    printf(": answers %u, length %zu, kept %zu, left over %zu, renumbered %u\n", (unsigned)answer, new_length, kept,
           left_over, (unsigned)renumbered);
}

static void salvage(const char *hex, uint64_t exam, uint32_t t)
{
    uint8_t old[64] = { 0 };
    size_t old_len = from_hex(hex, old);
    salvage_bytes(old, old_len, file, file_len, exam, t);
}

/* The first bytes of the buffer: a file, and what lies beyond it. */
static void print_buffer(size_t count)
{
    print_bytes(file, count);
    printf("\n");
}

/* Prints the bytes at the place that is answered, which must be in the file. */
static void find(size_t length, uint64_t exam, uint32_t slot)
{
    size_t offset = NOT_ANSWERED, block_length = NOT_ANSWERED;
    printf("find slot %u of exam %llu", (unsigned)slot, (unsigned long long)exam);
    uint32_t answer = coil_find(file, file_len, length, exam, slot, &offset, &block_length);
    printf(": answers %u", (unsigned)answer);
    if (offset > length || block_length > length - offset) {
        printf(" and a place outside the file");
    } else {
        print_bytes(file + offset, block_length);
    }
    printf("\n");
}

/* Fetches into room for at most 8 words. */
static void fetch(size_t length, uint64_t exam, uint32_t slot, size_t fcm_len, size_t dfcm_len, size_t room)
{
    uint64_t words[8] = { 0xEE, 0xEE, 0xEE, 0xEE, 0xEE, 0xEE, 0xEE, 0xEE };
    size_t count = NOT_ANSWERED;
    printf("fetch slot %u of exam %llu from %zu bytes", (unsigned)slot, (unsigned long long)exam, length);
    printf(", tables of %zu and %zu, room for %zu", fcm_len, dfcm_len, room);
    uint32_t answer = coil_fetch(file, file_len, length, exam, slot, fcm, fcm_len, dfcm, dfcm_len,
                                 words, room, &count);
    printf(": answers %u, count %zu", (unsigned)answer, count);
    print_words(words, at_most(room, count));
    printf("\n");
}

/* What the memory holds before a group of cases: no file, and something in the tables. */
static void lend_buffer(size_t length)
{
    memset(file, 0xEE, sizeof file);
    memset(bench, 0xEE, sizeof bench);
    fill_tables(7, 7);
    file_len = length;
}

/* The file of 53 bytes in a buffer of 61: exam 7, t 10, and the one word 0 in slot 3. Prints nothing, since the
 * same two calls are cases already. */
static void make_one_map(void)
{
    size_t length;
    lend_buffer(61);
    coil_create(file, file_len, 7, 10, &length);
    coil_append(file, file_len, 32, 7, 3, zero, 1, fcm, 1024, dfcm, 1024, bench, 17, &length);
}

/* ---- The cases of blocks ---- */

static void blocks_worked_by_hand(void)
{
    const uint64_t one_three[] = { 1, 3 }, four_bytes[] = { 0x80000000 };
    const uint64_t equal[] = {
        UINT64_C(0x3FF0000000000000), UINT64_C(0x3FF0000000000000), UINT64_C(0x3FF0000000000000)
    };
    printf("Blocks worked by hand\n");
    fill_tables(0x1234, 0x5678);
    pack(zero, 0, 1, 1);
    pack(zero, 1, 1, 1);
    pack(one, 1, 1, 1);
    pack(one, 2, 1, 1);
    pack(ramp, 3, 1, 1);
    pack(one_three, 2, 1, 1);
    pack(four_bytes, 1, 1, 1);
    pack(full, 2, 1, 1);
    pack(equal, 3, 64, 64);
}

/* The words 1, 3: as packed before request L2, when whole zero bytes were compared, and as they are packed. Then low
 * bits 3: four zero bytes, of which one is written, on top; three zero bytes, and the byte below the top is 0; and the
 * codes 7 and F, which have no byte, behind that top byte of 0. */
static void only_read(void)
{
    const char *four = "01 00 00 00 0e 00 00 00 37 00 00 00 80 00";
    const char *three = "01 00 00 00 0e 00 00 00 37 00 00 00 00 80";
    const char *by_bytes = "02 00 00 00 0b 00 00 00 66 01 02", *by_bits = "02 00 00 00 0b 00 00 00 6e 01 01";
    printf("Blocks that are read, whoever packed them\n");
    fill_tables(0x1234, 0x5678);
    check(by_bytes);
    unpack(by_bytes, 1, 1, 2);
    check(by_bits);
    unpack(by_bits, 1, 1, 2);
    check(four);
    unpack(four, 1, 1, 2);
    check(three);
    unpack(three, 1, 1, 2);
    unpack("02 00 00 00 0e 00 00 00 37 00 00 00 80 00", 1, 1, 2);
    unpack("02 00 00 00 0e 00 00 00 3f 00 00 00 80 00", 1, 1, 2);
}

/* A top byte of 0 by each code that has one: by low bits 3 it takes two. By the code of dfcm; as the first and as the
 * second of two words, and as the last of three. Then the wrong filler and the wrong length, which come before. */
static void padded(void)
{
    printf("Padded residuals\n");
    check("01 00 00 00 0a 00 00 00 67 00");
    check("01 00 00 00 0b 00 00 00 57 01 00");
    check("01 00 00 00 0b 00 00 00 57 00 01");
    check("01 00 00 00 0c 00 00 00 47 01 01 00");
    check("01 00 00 00 0e 00 00 00 37 01 01 01 01 00");
    check("01 00 00 00 0e 00 00 00 37 01 01 01 00 00");
    check("01 00 00 00 0e 00 00 00 37 00 00 00 00 00");
    check("01 00 00 00 0f 00 00 00 27 01 01 01 01 01 00");
    check("01 00 00 00 10 00 00 00 17 01 01 01 01 01 01 00");
    check("01 00 00 00 11 00 00 00 07 01 01 01 01 01 01 01 00");
    check("01 00 00 00 0a 00 00 00 e7 00");
    check("02 00 00 00 0b 00 00 00 66 00 02");
    check("02 00 00 00 0b 00 00 00 66 01 00");
    check("03 00 00 00 0b 00 00 00 77 67 00");
    check("01 00 00 00 0a 00 00 00 66 00");
    check("01 00 00 00 0b 00 00 00 67 00 00");
}

/* The ten bytes of word 1 with the last byte 00. Tables that differ come before, too little room comes behind; what the
 * words and the tables held stays. */
static void padded_and_unpacked(void)
{
    const char *ten = "01 00 00 00 0a 00 00 00 67 00";
    uint8_t block[16] = { 0 };
    uint64_t words[1] = { 0xEE };
    size_t length = from_hex(ten, block), count = NOT_ANSWERED;
    printf("A padded residual unpacked\n");
    fill_tables(0x1234, 0x5678);
    unpack(ten, 1, 2, 2);
    unpack(ten, 1, 1, 2);
    unpack(ten, 1, 1, 0);
    uint32_t answer = coil_unpack(block, length, fcm, 1, dfcm, 1, words, 1, &count);
    printf("left by the answer %u: words", (unsigned)answer);
    print_words(words, 1);
    printf(", tables");
    print_words(fcm, 1);
    print_words(dfcm, 1);
    printf(", count %zu\n", count);
}

/* Tables of no length, of three words, of 131,072 words, and tables that differ; then too many words; then too
 * little room. */
static void refusals_to_pack(void)
{
    printf("Refusals to pack\n");
    fill_tables(7, 7);
    pack(one, 1, 0, 0);
    pack(one, 1, 3, 3);
    pack(one, 1, MOST_TABLE, MOST_TABLE);
    pack(one, 1, 1, 2);
    pack(one, 1, 2, 1);
    pack(many_words, COIL_MOST_WORDS + 1, 1, 1);
    pack(one, 7, 1, 1);
}

/* A count of 2^32 - 1; a length field of 0 and of 2^32 - 1; codes that add up to another length; a filler that
 * is not 7; a block cut anywhere, the whole block, and one with a byte added. */
static void refusals_to_check(void)
{
    uint8_t added[12] = { 0 };
    size_t length = from_hex("03 00 00 00 0b 00 00 00 6f f7 01 00", added);
    printf("Refusals to check\n");
    check("ff ff ff ff 08 00 00 00");
    check("01 00 00 00 00 00 00 00 77");
    check("01 00 00 00 ff ff ff ff 77");
    check("01 00 00 00 09 00 00 00 67");
    check("01 00 00 00 09 00 00 00 66");
    check("09 00 00 00 09 00 00 00 77");
    check("01 00 00 00 09 00 00 00 76");
    for (size_t cut = 0; cut <= length; cut++) {
        check_bytes(added, cut);
    }
}

/* Tables that differ, before all else; then what check refuses; then too little room for the words. */
static void refusals_to_unpack(void)
{
    const char *whole = "03 00 00 00 0b 00 00 00 6f f7 01";
    printf("Refusals to unpack\n");
    fill_tables(7, 7);
    unpack("", 1, 2, 3);
    unpack("", 1, 1, 3);
    unpack("01 00 01 00 09 00 00 00 77", 1, 1, 3);
    unpack("01 00 00 00 09 00 00 00 67", 1, 1, 3);
    unpack("01 00 00 00 09 00 00 00 76", 1, 1, 3);
    unpack(whole, 1, 1, 2);
    unpack(whole, 1, 1, 3);
}

/* ---- The cases of files ---- */

/* The empty file of exam 7, the file of 53 bytes, and what it answers. */
static void files_worked_by_hand(void)
{
    printf("Files worked by hand\n");
    lend_buffer(128);
    create(7, 10);
    print_buffer(32);
    append(32, 7, 3, zero, 1, 1024, 1024, 17);
    print_buffer(53);
    open_file(53, 7);
    find(53, 7, 3);
    fetch(53, 7, 3, 1024, 1024, 8);
}

/* A file of one map, whose block holds the bytes of a directory and a trailer. Its first 56 bytes open, and the
 * slot that they claim is refused. */
static void cut_file(void)
{
    const uint64_t exam = UINT64_C(0x1716151413121110);
    const uint64_t words[7] = {
        1, UINT64_C(0xC00000000040303), UINT64_C(0xC00006F63040303), UINT64_C(0xC10006F63056F6A),
        UINT64_C(0x2007167A77167D7B), UINT64_C(0x1807167A76167D7B), UINT64_C(0x1907167A76167D7B)
    };
    printf("A file that opens although it is cut\n");
    lend_buffer(128);
    create(exam, 0);
    append(32, exam, 3, words, 7, 1, 1, 68);
    fetch(101, exam, 3, 1, 1, 8);
    open_file(56, exam);
    fetch(56, exam, 0x4030201, 1, 1, 8);
    fetch(56, exam, 3, 1, 1, 8);
}

/* What create refuses. Then what open refuses of a length: under 32, not the one stated, beyond its buffer; and
 * the wrong exam numbers. */
static void refusals_to_create_and_open(void)
{
    printf("Refusals to create and open\n");
    lend_buffer(128);
    create(0, 10);
    create(7, 17);
    file_len = 31;
    create(7, 10);
    file_len = 128;
    create(7, 10);
    open_file(32, 8);
    open_file(32, 0);
    open_file(31, 7);
    open_file(33, 7);
    open_file(129, 7);
    open_file(SIZE_MAX, 7);
}

/* Opens the file of 53 bytes with one byte changed. */
static void changed(size_t at, uint8_t to)
{
    make_one_map();
    file[at] = to;
    printf("byte %zu is %u: ", at, (unsigned)to);
    open_file(53, 7);
}

/* What open refuses of a trailer: the mark, the edition, t of 17, the exam number, a distance that is not 32 + 12
 * times the entries, one larger than the file, 1,025 entries, another length. What it refuses of a directory: an
 * offset that is not 0, a length that leaves a hole, overlaps, is far too large, or is under 8. */
static void refusals_of_a_field(void)
{
    printf("The file of 53 bytes, first as it is, then with one byte changed\n");
    changed(8, 0x77);
    changed(21, 0x64);
    changed(25, 2);
    changed(27, 17);
    changed(29, 8);
    changed(37, 45);
    changed(40, 1);
    changed(42, 4);
    changed(45, 54);
    changed(13, 1);
    changed(17, 8);
    changed(17, 10);
    changed(20, 0xFF);
    changed(17, 7);
}

/* A directory whose second slot is changed: equal to the first, and below it. */
static void slots_that_do_not_ascend(void)
{
    printf("A file of two maps with its second slot changed\n");
    lend_buffer(128);
    create(7, 1);
    append_zero(32, 7, 4, 17);
    append_zero(53, 7, 5, 17);
    open_file(74, 7);
    file[30] = 4;
    printf("second slot 4: ");
    open_file(74, 7);
    file[30] = 3;
    printf("second slot 3: ");
    open_file(74, 7);
}

/* The lowest and the highest slot there is; another slot, and another exam number. */
static void refusals_to_find(void)
{
    printf("Refusals to find\n");
    lend_buffer(128);
    create(7, 1);
    append_zero(32, 7, 0, 17);
    append(53, 7, UINT32_MAX, one, 1, 2, 2, 17);
    find(75, 7, 0);
    find(75, 7, UINT32_MAX);
    find(75, 7, 1);
    find(75, 8, 0);
}

/* Another exam number, another slot, tables that differ, tables of another size; then too little room, and a block
 * with 6 for its filler. */
static void refusals_to_fetch(void)
{
    printf("Refusals to fetch\n");
    lend_buffer(128);
    create(7, 1);
    append_zero(32, 7, 5, 17);
    fetch(53, 8, 5, 2, 2, 8);
    fetch(53, 7, 6, 2, 2, 8);
    fetch(53, 7, 5, 1, 2, 8);
    fetch(53, 7, 5, 4, 4, 8);
    fetch(53, 7, 5, 2, 2, 8);
    make_one_map();
    fetch(53, 7, 3, 1024, 1024, 0);
    make_one_map();
    file[8] = 0x76;
    printf("byte 8 is 118: ");
    fetch(53, 7, 3, 1024, 1024, 8);
}

/* The residual byte of the one map becomes 0. The file opens, and is found in and appended to. The map alone is
 * refused, behind a slot that is not there and tables that differ, and before too little room. It can be replaced. */
static void padded_in_a_file(void)
{
    printf("A padded residual in a file\n");
    lend_buffer(128);
    create(7, 10);
    append(32, 7, 3, one, 1, 1024, 1024, 17);
    file[9] = 0;
    printf("byte 9 is 0: ");
    open_file(54, 7);
    find(54, 7, 3);
    fetch(54, 7, 4, 1024, 512, 0);
    fetch(54, 7, 3, 1024, 512, 0);
    fetch(54, 7, 3, 1024, 1024, 0);
    fetch(54, 7, 3, 1024, 1024, 8);
    append(54, 7, 4, zero, 1, 1024, 1024, 17);
    fetch(75, 7, 3, 1024, 1024, 8);
    fetch(75, 7, 4, 1024, 1024, 8);
    replace(75, 7, 3, one, 1, 1024, 1024, 17);
    fetch(75, 7, 3, 1024, 1024, 8);
}

/* Another exam number, tables that differ, too many words, and room that is one byte short in the buffer or in the
 * bench; then at exactly those limits; then a slot that is not above the last. */
static void refusals_to_append(void)
{
    printf("Refusals to append\n");
    lend_buffer(61);
    create(7, 1);
    file_len = 60;
    create(7, 1);
    file_len = 61;
    append_zero(32, 8, 3, 17);
    append(32, 7, 3, zero, 1, 1, 2, 17);
    append(32, 7, 3, many_words, COIL_MOST_WORDS + 1, 2, 2, 17);
    file_len = 60;
    append_zero(32, 7, 3, 17);
    file_len = 61;
    append_zero(32, 7, 3, 16);
    append_zero(32, 7, 3, 17);
    append_zero(53, 7, 3, 17);
    append_zero(53, 7, 2, 17);
}

/* The file of 53 bytes with its map replaced by three words, and by none: then three bytes are freed. The last byte
 * printed lies beyond both files, and is as it was. */
static void replace_the_only_map(void)
{
    printf("The map of the file of 53 bytes replaced\n");
    make_one_map();
    file_len = 128;
    replace(53, 7, 3, ramp, 3, 1024, 1024, 34);
    print_buffer(56);
    fetch(55, 7, 3, 1024, 1024, 8);
    replace(55, 7, 3, ramp, 0, 1024, 1024, 8);
    print_buffer(56);
    fetch(52, 7, 3, 1024, 1024, 8);
}

/* Two maps. The first is replaced by fewer bytes, so that the second moves down and sixteen bytes are freed, and by
 * more; then the second by fewer. */
static void replace_one_of_two_maps(void)
{
    printf("One of two maps replaced\n");
    lend_buffer(128);
    create(7, 0);
    append(32, 7, 3, full, 2, 1, 1, 25);
    append(69, 7, 4, one, 1, 1, 1, 17);
    print_buffer(92);
    replace(91, 7, 3, zero, 1, 1, 1, 17);
    print_buffer(92);
    find(75, 7, 4);
    fetch(75, 7, 4, 1, 1, 8);
    replace(75, 7, 3, ramp, 3, 1, 1, 34);
    print_buffer(77);
    fetch(77, 7, 3, 1, 1, 8);
    fetch(77, 7, 4, 1, 1, 8);
    replace(77, 7, 4, one, 0, 1, 1, 8);
    print_buffer(77);
    fetch(75, 7, 3, 1, 1, 8);
    fetch(75, 7, 4, 1, 1, 8);
}

/* A block with 6 for its filler, which no fetch takes, can be replaced. */
static void replace_a_damaged_map(void)
{
    printf("A damaged map replaced\n");
    make_one_map();
    file[8] = 0x76;
    printf("byte 8 is 118: ");
    replace(53, 7, 3, one, 1, 1024, 1024, 17);
    fetch(54, 7, 3, 1024, 1024, 8);
}

/* What open refuses; a slot that is not there, before all else; tables that differ and of another size, before too
 * many words; too many words, before room; and room that is one byte short in the buffer or in the bench; then at
 * exactly those limits; then a file without a slot. */
static void refusals_to_replace(void)
{
    printf("Refusals to replace\n");
    lend_buffer(61);
    create(7, 1);
    append_zero(32, 7, 3, 17);
    replace_by_one(31, 7, 3, 17);
    replace_by_one(62, 7, 3, 17);
    replace_by_one(52, 7, 3, 17);
    replace_by_one(53, 8, 3, 17);
    file[17] = 8;
    printf("byte 17 is 8: ");
    replace_by_one(53, 7, 3, 17);
    file[17] = 9;
    replace_by_one(53, 7, 4, 17);
    replace(53, 7, 2, many_words, COIL_MOST_WORDS + 1, 1, 2, 0);
    replace(53, 7, 3, one, 1, 1, 2, 17);
    replace(53, 7, 3, many_words, COIL_MOST_WORDS + 1, 4, 4, 0);
    replace(53, 7, 3, many_words, COIL_MOST_WORDS + 1, 2, 2, 0);
    file_len = 60;
    replace_by_one(53, 7, 3, 17);
    file_len = 61;
    replace_by_one(53, 7, 3, 16);
    replace_by_one(53, 7, 3, 17);
    fetch(54, 7, 3, 2, 2, 8);
    create(7, 1);
    replace_by_one(32, 7, 3, 17);
}

/* Three maps in one call. The second takes the word behind those of the first, the third shares one with the first.
 * Beyond the last block the bench has a byte of the first, and then what it held before. */
static void list_worked_by_hand(void)
{
    const list_lent lent = { 32, 7, ramp_and_zero, 4, 1024, 1024, 34 };
    const coil_record records[3] = { { 3, 0, 3 }, { 4, 3, 1 }, { 5, 0, 1 } };
    printf("A list worked by hand\n");
    lend_buffer(128);
    create(7, 10);
    append_all(file, file_len, lent, records, 3);
    print_buffer(99);
    printf("bench:");
    print_bytes(bench, 12);
    printf("\n");
    fetch(98, 7, 3, 1024, 1024, 8);
    fetch(98, 7, 4, 1024, 1024, 8);
    fetch(98, 7, 5, 1024, 1024, 8);
}

/* The second record reaches one word too far: the first stays, and the file opens. Mended, it goes in. */
static void list_refused_and_gone_on_with(void)
{
    list_lent lent = { 32, 7, ramp_and_zero, 4, 1024, 1024, 34 };
    printf("A list refused at its second record, and gone on with\n");
    lend_buffer(128);
    create(7, 10);
    append_two(lent, 3, 0, 3, 4, 3, 2);
    print_buffer(56);
    open_file(55, 7);
    fetch(55, 7, 3, 1024, 1024, 8);
    lent.length = 55;
    append_one(lent, 4, 3, 1);
    print_buffer(77);
    fetch(76, 7, 4, 1024, 1024, 8);
}

/* It asks for no tables, words or bench, and the file must open. */
static void list_without_a_record(void)
{
    const coil_record nothing = { 4, 0, 1 };
    list_lent none = { 53, 7, zero, 0, 1, 2, 0 };
    printf("A list without a record\n");
    make_one_map();
    append_all(file, file_len, none, &nothing, 0);
    print_buffer(54);
    none.exam = 8;
    append_all(file, file_len, none, &nothing, 0);
    none.length = 62;
    append_all(file, file_len, none, &nothing, 0);
}

/* What open refuses, each beside a record that is beyond the words. */
static void lists_for_no_file(void)
{
    list_lent lent = { 31, 8, ramp_and_zero, 4, 1024, 1024, 17 };
    printf("Lists for a file that does not open\n");
    make_one_map();
    append_one(lent, 4, 4, 1);
    lent.length = 62;
    append_one(lent, 4, 4, 1);
    lent.length = 52;
    append_one(lent, 4, 4, 1);
    lent.length = 53;
    append_one(lent, 4, 4, 1);
    lent.exam = 7;
    file[17] = 8;
    printf("byte 17 is 8: ");
    append_one(lent, 4, 4, 1);
}

/* One word too many, none from one too far on, sums that wrap; beside a slot that is there and tables that differ. No
 * words from the end of the buffer on go in. */
static void records_beyond_the_words(void)
{
    list_lent lent = { 53, 7, ramp_and_zero, 4, 1, 2, 0 };
    printf("Records beyond the words\n");
    make_one_map();
    append_one(lent, 3, 0, 5);
    append_one(lent, 3, 4, 1);
    append_one(lent, 3, 5, 0);
    append_one(lent, 3, SIZE_MAX, 1);
    append_one(lent, 3, 2, SIZE_MAX);
    append_one(lent, 3, SIZE_MAX, SIZE_MAX);
    append_one(lent, 3, SIZE_MAX / 2 + 1, SIZE_MAX / 2 + 1);
    lent.fcm_len = lent.dfcm_len = 1024;
    lent.bench_len = 8;
    file_len = 73;
    append_one(lent, 4, 4, 0);
}

/* A slot that is there, a lower one, and one that the list has already, before tables; tables that differ and of
 * another size, before too many words; too many words, before room. */
static void refusals_to_append_all(void)
{
    list_lent lent = { 53, 7, ramp_and_zero, 4, 1, 2, 17 };
    printf("Refusals to append a list\n");
    lend_buffer(128);
    create(7, 1);
    append_zero(32, 7, 3, 17);
    append_one(lent, 3, 0, 1);
    append_one(lent, 2, 0, 1);
    append_one(lent, 4, 0, 1);
    lent.words = many_words;
    lent.words_len = COIL_MOST_WORDS + 1;
    lent.fcm_len = lent.dfcm_len = 4;
    append_one(lent, 4, 0, COIL_MOST_WORDS + 1);
    lent.fcm_len = lent.dfcm_len = 2;
    append_one(lent, 4, 0, COIL_MOST_WORDS + 1);
    append_two(lent, 4, 0, 1, 5, 0, COIL_MOST_WORDS + 1);
    lent.length = 74;
    append_two(lent, 5, 0, 1, 5, 0, COIL_MOST_WORDS + 1);
    lent.length = 95;
    append_two(lent, 6, 0, 0, 4, 0, 1);
}

/* Room that is one byte short for the second record, in the buffer or in the bench; then at exactly those limits. The
 * first record takes the one word 0: 9 bytes, and 12 of its entry. */
static void no_room_for_a_record(void)
{
    list_lent lent = { 32, 7, ramp_and_zero, 4, 1, 1, 34 };
    printf("No room for the second record\n");
    lend_buffer(98);
    create(7, 0);
    append_two(lent, 3, 3, 1, 4, 0, 3);
    file_len = 99;
    create(7, 0);
    lent.bench_len = 33;
    append_two(lent, 3, 3, 1, 4, 0, 3);
    create(7, 0);
    lent.bench_len = 34;
    append_two(lent, 3, 3, 1, 4, 0, 3);
}

/* 1,025 records without words; then one more for the file that is full, and one that is beyond the words too. */
static void full_file(void)
{
    static uint8_t large[COIL_FILE_ROOM(COIL_MOST_ENTRIES + 1, 0)];
    static coil_record records[COIL_MOST_ENTRIES + 1];
    list_lent lent = { 32, 7, zero, 1, 1, 1, 8 };
    size_t length;
    for (uint32_t slot = 0; slot <= COIL_MOST_ENTRIES; slot++) {
        records[slot].slot = slot;
    }
    printf("A list of 1,025 records\n");
    coil_create(large, sizeof large, 7, 0, &length);
    append_all(large, sizeof large, lent, records, COIL_MOST_ENTRIES + 1);
    lent.length = 20512;
    append_all(large, sizeof large, lent, records, 1);
    records[0].first = 2;
    append_all(large, sizeof large, lent, records, 1);
    append_all(large, sizeof large, lent, records, 0);
}

/* The file of 53 bytes, whole and cut behind its block: the same new file, in which slot 3 is slot 0. Cut by one byte
 * more it has no block. So have no bytes at all, and the empty file. The last byte printed lies beyond the new file. */
static void salvages_worked_by_hand(void)
{
    printf("The file of 53 bytes salvaged, whole and cut\n");
    lend_buffer(128);
    salvage("01 00 00 00 09 00 00 00 77 03 00 00 00 00 00 00 00 09 00 00 00 63 6f 69 6c 01 00 0a 00 07 00 00 00 "
            "00 00 00 00 2c 00 00 00 01 00 00 00 35 00 00 00 00 00 00 00", 7, 10);
    print_buffer(54);
    open_file(53, 7);
    fetch(53, 7, 0, 1024, 1024, 8);
    fetch(53, 7, 3, 1024, 1024, 8);
    lend_buffer(128);
    salvage("01 00 00 00 09 00 00 00 77", 7, 10);
    print_buffer(54);
    lend_buffer(128);
    salvage("01 00 00 00 09 00 00 00", 7, 10);
    print_buffer(33);
    open_file(32, 7);
    lend_buffer(128);
    salvage("", 7, 10);
    print_buffer(33);
    lend_buffer(128);
    salvage("63 6f 69 6c 01 00 0a 00 07 00 00 00 00 00 00 00 20 00 00 00 00 00 00 00 20 00 00 00 00 00 00 00", 7, 10);
    print_buffer(33);
}

/* Three blocks, of 11, 8 and 10 bytes, and three bytes of a fourth. */
static void salvage_of_three_blocks(void)
{
    printf("Three blocks salvaged\n");
    lend_buffer(128);
    salvage("03 00 00 00 0b 00 00 00 6f f7 01 00 00 00 00 08 00 00 00 01 00 00 00 0a 00 00 00 67 01 01 00 00",
            UINT64_MAX, 0);
    print_buffer(98);
    open_file(97, UINT64_MAX);
    open_file(97, 7);
    fetch(97, UINT64_MAX, 0, 1, 1, 8);
    fetch(97, UINT64_MAX, 1, 1, 1, 8);
    fetch(97, UINT64_MAX, 2, 1, 1, 8);
}

/* A filler that is not 7, with a whole block before it and one behind; a block that lacks its last byte; lengths of
 * 2^32 - 1, of 0 and of 7; a count of 2^32 - 1; codes that add up to more and to less than the length; a padded
 * residual, alone, first, between two whole blocks, and last. Then blocks that are whole: no words, and one byte of 0
 * on top by low bits 3. */
static void ends_of_a_salvage(void)
{
    printf("The first block that is not whole\n");
    lend_buffer(128);
    salvage("01 00 00 00 09 00 00 00 77 01 00 00 00 09 00 00 00 76 01 00 00 00 09 00 00 00 77", 7, 10);
    salvage("01 00 00 00 0a 00 00 00 67", 7, 10);
    salvage("00 00 00 00 ff ff ff ff", 7, 10);
    salvage("00 00 00 00 00 00 00 00", 7, 10);
    salvage("00 00 00 00 07 00 00 00", 7, 10);
    salvage("ff ff ff ff 08 00 00 00", 7, 10);
    salvage("01 00 00 00 09 00 00 00 67 01", 7, 10);
    salvage("01 00 00 00 0a 00 00 00 77 01", 7, 10);
    salvage("01 00 00 00 0a 00 00 00 67 00", 7, 10);
    salvage("01 00 00 00 0a 00 00 00 67 00 01 00 00 00 09 00 00 00 77", 7, 10);
    salvage("01 00 00 00 09 00 00 00 77 01 00 00 00 0a 00 00 00 67 00 01 00 00 00 09 00 00 00 77", 7, 10);
    salvage("01 00 00 00 09 00 00 00 77 01 00 00 00 0a 00 00 00 67 00", 7, 10);
    salvage("00 00 00 00 08 00 00 00", 7, 10);
    salvage("01 00 00 00 0e 00 00 00 37 00 00 00 80 00", 7, 10);
}

/* Exam number 0, before t of 17, before room that is one byte short of the new file; then at exactly that limit. */
static void refusals_to_salvage(void)
{
    const char *zero_block = "01 00 00 00 09 00 00 00 77";
    printf("Refusals to salvage\n");
    lend_buffer(0);
    salvage(zero_block, 0, 17);
    salvage(zero_block, 7, 17);
    salvage(zero_block, 7, 10);
    file_len = 52;
    salvage(zero_block, 0, 10);
    salvage(zero_block, 7, UINT32_MAX);
    salvage(zero_block, 7, 16);
    file_len = 31;
    salvage("", 7, 10);
    salvage("", 0, 17);
    print_buffer(53);
    file_len = 53;
    salvage(zero_block, 7, 16);
    file_len = 32;
    salvage("", 7, 10);
}

/* One block without words more than a file can have. */
static void salvage_of_many_blocks(void)
{
    static uint8_t large[COIL_SALVAGE_ROOM(8200)], old[8200];
    for (size_t i = 4; i < sizeof old; i += 8) {
        old[i] = 8;
    }
    printf("A salvage of 1,025 blocks\n");
    salvage_bytes(old, sizeof old, large, 20511, 7, 10);
    salvage_bytes(old, sizeof old, large, 20512, 7, 10);
    salvage_bytes(old, 8192, large, sizeof large, 7, 10);
}

int main(void)
{
    /* Where a call ends the program, the line up to that call is still printed. */
    setvbuf(stdout, NULL, _IONBF, 0);
    blocks_worked_by_hand();
    only_read();
    padded();
    padded_and_unpacked();
    refusals_to_pack();
    refusals_to_check();
    refusals_to_unpack();
    files_worked_by_hand();
    cut_file();
    refusals_to_create_and_open();
    refusals_of_a_field();
    slots_that_do_not_ascend();
    refusals_to_find();
    refusals_to_fetch();
    padded_in_a_file();
    refusals_to_append();
    replace_the_only_map();
    replace_one_of_two_maps();
    replace_a_damaged_map();
    refusals_to_replace();
    list_worked_by_hand();
    list_refused_and_gone_on_with();
    list_without_a_record();
    lists_for_no_file();
    records_beyond_the_words();
    refusals_to_append_all();
    no_room_for_a_record();
    full_file();
    salvages_worked_by_hand();
    salvage_of_three_blocks();
    ends_of_a_salvage();
    refusals_to_salvage();
    salvage_of_many_blocks();
    return 0;
}
