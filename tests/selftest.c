/* The reference against the rules' own worked bytes, so that it is not only compared with the library.
 *
 * Blocks, hashes and files worked by hand, the table of codes, round trips, and the room a block takes.
 */
#include "hex.h"
#include "reference.h"
#include "words.h"

#include <stdio.h>
#include <string.h>

#define MOST 400
#define WORST(n) (8 + ((n) + 1) / 2 + 8 * (n))

static unsigned passed;
static unsigned failed;

static uint64_t fcm[65536];
static uint64_t dfcm[65536];
static uint8_t block[WORST(MOST)];
static uint8_t bench[WORST(MOST)];
static uint8_t file[4096];

static void holds(int right, const char *what)
{
    if (right) {
        passed++;
    } else {
        failed++;
        printf("FAILED %s\n", what);
    }
}

static size_t pack(const uint64_t *words, size_t count, unsigned t)
{
    size_t length = 1;
    uint32_t answer = ref_pack(words, count, fcm, (size_t)1 << t, dfcm, (size_t)1 << t,
                               block, WORST(count), &length);
    holds(answer == 0, "packing is done");
    return length;
}

/* ---- Blocks worked by hand ---- */

static void packs_to(const uint64_t *words, size_t count, unsigned t, const char *hex)
{
    uint8_t expected[64];
    size_t expected_length = from_hex(hex, expected);
    size_t length = pack(words, count, t);
    holds(length == expected_length && memcmp(block, expected, length) == 0, hex);
}

static void packed_before_to(const uint64_t *words, size_t count, unsigned t, const char *hex)
{
    uint8_t expected[64];
    size_t expected_length = from_hex(hex, expected);
    size_t length = ref_pack_before(words, count, fcm, dfcm, (size_t)1 << t, block);
    holds(length == expected_length && memcmp(block, expected, length) == 0, hex);
}

static void worked_blocks(void)
{
    const uint64_t zero[] = { 0 }, one[] = { 1 }, ones[] = { 1, 1 }, ramp[] = { 1, 2, 3 };
    const uint64_t one_three[] = { 1, 3 }, four_bytes[] = { 0x80000000 }, full[] = { UINT64_MAX, 0 };
    const uint64_t equal[] = {
        UINT64_C(0x3FF0000000000000), UINT64_C(0x3FF0000000000000), UINT64_C(0x3FF0000000000000)
    };
    packs_to(zero, 0, 0, "00 00 00 00 08 00 00 00");
    packs_to(zero, 1, 0, "01 00 00 00 09 00 00 00 77");
    packs_to(one, 1, 0, "01 00 00 00 0A 00 00 00 67 01");
    packs_to(ones, 2, 0, "02 00 00 00 0A 00 00 00 67 01");
    packs_to(ramp, 3, 0, "03 00 00 00 0B 00 00 00 6F F7 01");
    packs_to(one_three, 2, 0, "02 00 00 00 0B 00 00 00 6E 01 01");
    packs_to(four_bytes, 1, 0, "01 00 00 00 0E 00 00 00 37 00 00 00 80 00");
    packs_to(full, 2, 0, "02 00 00 00 19 00 00 00 00 FF FF FF FF FF FF FF FF FF FF FF FF FF FF FF FF");
    packs_to(equal, 3, 6, "03 00 00 00 1A 00 00 00 00 77 00 00 00 00 00 00 F0 3F 00 00 00 00 00 00 F0 3F");
}

/* As it was packed before, when whole zero bytes were compared. The words 1, 3: fcm predicts 1 for the second, which
 * leaves 2, and dfcm 2, which leaves 1. Both have seven zero bytes, so fcm was taken; dfcm's has a zero bit more. The
 * third of 1, 2, 3 has residual 0 by dfcm: more bytes, and more bits. */
static void worked_before(void)
{
    const uint64_t one_three[] = { 1, 3 }, ramp[] = { 1, 2, 3 };
    packed_before_to(one_three, 2, 0, "02 00 00 00 0B 00 00 00 66 01 02");
    packed_before_to(ramp, 3, 0, "03 00 00 00 0B 00 00 00 6F F7 01");
}

static void checks_to(const char *hex, uint32_t answer)
{
    uint8_t bytes[64];
    size_t length = from_hex(hex, bytes);
    holds(ref_check(bytes, length) == answer, hex);
}

static void worked_refusals(void)
{
    checks_to("01 00 00 00 09 00 00 00 77", 0);
    checks_to("01 00 00 00 09 00 00 00 76", 6);
    checks_to("01 00 00 00 09 00 00 00 67", 5);
    checks_to("01 00 00 00 09 00 00 00 66", 5);
    checks_to("01 00 00 00 0A 00 00", 4);
    checks_to("01 00 01 00 0A 00 00 00 67 00", 2);
}

/* One word by each code that has residual bytes: with a top byte of 1, and of 0. Low bits 3 stand for three zero bytes
 * or four, so that there one 0 on top is right. */
static void worked_padding(void)
{
    checks_to("01 00 00 00 11 00 00 00 07 FF FF FF FF FF FF FF 01", 0);
    checks_to("01 00 00 00 11 00 00 00 07 FF FF FF FF FF FF FF 00", 13);
    checks_to("01 00 00 00 10 00 00 00 17 FF FF FF FF FF FF 01", 0);
    checks_to("01 00 00 00 10 00 00 00 17 FF FF FF FF FF FF 00", 13);
    checks_to("01 00 00 00 0F 00 00 00 27 FF FF FF FF FF 01", 0);
    checks_to("01 00 00 00 0F 00 00 00 27 FF FF FF FF FF 00", 13);
    checks_to("01 00 00 00 0E 00 00 00 37 FF FF FF 00 01", 0);
    checks_to("01 00 00 00 0E 00 00 00 37 FF FF FF 01 00", 0);
    checks_to("01 00 00 00 0E 00 00 00 37 FF FF FF 00 00", 13);
    checks_to("01 00 00 00 0C 00 00 00 47 FF FF 01", 0);
    checks_to("01 00 00 00 0C 00 00 00 47 FF FF 00", 13);
    checks_to("01 00 00 00 0B 00 00 00 57 FF 01", 0);
    checks_to("01 00 00 00 0B 00 00 00 57 FF 00", 13);
    checks_to("01 00 00 00 0A 00 00 00 67 01", 0);
    checks_to("01 00 00 00 0A 00 00 00 67 00", 13);
    checks_to("01 00 00 00 0A 00 00 00 E7 00", 13);
    checks_to("02 00 00 00 0B 00 00 00 66 01 00", 13);
    checks_to("01 00 00 00 0A 00 00 00 66 00", 6);
    checks_to("01 00 00 00 0B 00 00 00 67 00 00", 5);

    uint8_t bytes[16];
    uint64_t word = 9;
    size_t count = 9;
    size_t length = from_hex("01 00 00 00 0A 00 00 00 67 00", bytes);
    fcm[0] = dfcm[0] = 9;
    uint32_t answer = ref_unpack(bytes, length, fcm, 1, dfcm, 1, &word, 0, &count);
    holds(answer == 13 && count == 0, "a padded residual is refused, before too little room");
    holds(word == 9 && fcm[0] == 9 && dfcm[0] == 9, "and nothing is changed");
    holds(ref_unpack(bytes, length, fcm, 1, dfcm, 2, &word, 1, &count) == 1, "tables that differ come first");
}

/* One word with each number of leading zero bytes. The first prediction is 0, so the residual is the
 * word; the code's low bits and the bytes written are those of the rules' table. */
static void table_of_codes(void)
{
    static const unsigned low_bits[9] = { 0, 1, 2, 3, 3, 4, 5, 6, 7 };
    static const size_t written[9] = { 8, 7, 6, 5, 5, 3, 2, 1, 0 };
    for (unsigned zero_bytes = 0; zero_bytes <= 8; zero_bytes++) {
        uint64_t word = zero_bytes == 8 ? 0 : UINT64_C(0x8877665544332211) >> (8 * zero_bytes);
        size_t length = pack(&word, 1, 5);
        holds(length == 9 + written[zero_bytes], "bytes written");
        holds(block[8] == 16 * low_bits[zero_bytes] + 7, "low bits of the code");
        int low_byte_first = 1;
        for (size_t i = 0; i < written[zero_bytes]; i++) {
            low_byte_first = low_byte_first && block[9 + i] == (uint8_t)(word >> (8 * i));
        }
        holds(low_byte_first, "residual bytes, low byte first");
    }
}

/* ---- Hashes worked by hand ---- */

/* Four words whose top two bytes are 1, 2, 134, 134. The differences are 1, 1 and 132 times 2^48, then 1.
 *   fcm, t = 16:   hashes 0; 0 ^ 1 = 1; 64 ^ 2 = 66; 4224 ^ 134 = 4102
 *   dfcm, t = 16:  2^48 shifted right by 40 is 256, 132 times that is 33792: hashes 0; 0 ^ 256 = 256;
 *                  1024 ^ 256 = 1280; 5120 ^ 33792 = 36864
 *   t = 8 keeps the low eight bits: fcm 0, 1, 66, 6; dfcm always 0 */
static void worked_hashes(void)
{
    const uint64_t step = UINT64_C(1) << 48;
    const uint64_t words[4] = { step, 2 * step, 134 * step, 134 * step + 1 };
    size_t used = 0;
    pack(words, 4, 16);
    holds(fcm[0] == words[0] && fcm[1] == words[1] && fcm[66] == words[2] && fcm[4102] == words[3],
          "fcm hashes, t = 16");
    holds(dfcm[0] == step && dfcm[256] == step && dfcm[1280] == 132 * step && dfcm[36864] == 1,
          "dfcm hashes, t = 16");
    for (size_t i = 0; i < 65536; i++) {
        used += (fcm[i] != 0) + (dfcm[i] != 0);
    }
    holds(used == 8, "nothing else in the tables");
    pack(words, 4, 8);
    holds(fcm[0] == words[0] && fcm[1] == words[1] && fcm[66] == words[2] && fcm[6] == words[3],
          "fcm hashes, t = 8");
    holds(dfcm[0] == 1, "dfcm hashes, t = 8");
}

/* ---- Files worked by hand ---- */

static void worked_files(void)
{
    uint8_t empty[64], filled[64];
    const uint64_t zero[] = { 0 };
    size_t length = 0, offset = 1, block_length = 1;
    size_t empty_length = from_hex("63 6F 69 6C 01 00 0A 00 07 00 00 00 00 00 00 00 "
                                   "20 00 00 00 00 00 00 00 20 00 00 00 00 00 00 00", empty);
    size_t filled_length = from_hex("01 00 00 00 09 00 00 00 77 03 00 00 00 00 00 00 00 09 00 00 00 "
                                    "63 6F 69 6C 01 00 0A 00 07 00 00 00 00 00 00 00 "
                                    "2C 00 00 00 01 00 00 00 35 00 00 00 00 00 00 00", filled);
    holds(ref_create(file, sizeof file, 7, 10, &length) == 0, "creating");
    holds(length == 32 && empty_length == 32 && memcmp(file, empty, 32) == 0, "the empty file");
    holds(ref_append(file, sizeof file, length, 7, 3, zero, 1, fcm, 1024, dfcm, 1024,
                     bench, sizeof bench, &length) == 0, "appending");
    holds(length == 53 && filled_length == 53 && memcmp(file, filled, 53) == 0, "the file of 53 bytes");
    holds(memcmp(bench, filled, 9) == 0, "the bench holds the block");
    holds(ref_open(file, sizeof file, length, 7) == 0, "opening");
    holds(ref_open(file, sizeof file, length, 8) == 8, "opening as another exam");
    holds(ref_find(file, sizeof file, length, 7, 3, &offset, &block_length) == 0, "finding");
    holds(offset == 0 && block_length == 9, "the block's place");
    holds(ref_find(file, sizeof file, length, 7, 4, &offset, &block_length) == 10, "another slot");
    holds(offset == 0 && block_length == 0, "refused: an empty part");
}

/* The files after a replace. Each block, offset, size, length and freed byte is worked out from the rules. */

static void replaces_to(size_t length, uint32_t slot, const uint64_t *words, size_t count, size_t table,
                        const char *hex)
{
    uint8_t expected[128];
    size_t expected_length = from_hex(hex, expected), new_length = 1;
    uint32_t answer = ref_replace(file, sizeof file, length, 7, slot, words, count, fcm, table, dfcm, table,
                                  bench, WORST(count), &new_length);
    size_t both_ends = new_length > length ? new_length : length;
    int freed_is_zero = 1, beyond_is_kept = 1;
    for (size_t i = new_length; i < length; i++) {
        freed_is_zero = freed_is_zero && file[i] == 0;
    }
    for (size_t i = both_ends; i < sizeof file; i++) {
        beyond_is_kept = beyond_is_kept && file[i] == 0xEE;
    }
    holds(answer == 0, "replacing");
    holds(new_length == expected_length && memcmp(file, expected, expected_length) == 0, hex);
    holds(freed_is_zero, "the freed bytes are 0");
    holds(beyond_is_kept, "beyond both ends nothing changes");
}

/* The file of 53 bytes. Its t is 10, but the words 1, 2, 3 and their differences are so small that every hash is 0:
 * the block is that of t = 0. Without words the file has 52 bytes, and three are freed; they were 0 already. */
static void worked_replaces(void)
{
    const uint64_t ramp[] = { 1, 2, 3 }, zero[] = { 0 };
    size_t length = 0;
    memset(file, 0xEE, sizeof file);
    ref_create(file, sizeof file, 7, 10, &length);
    ref_append(file, sizeof file, length, 7, 3, zero, 1, fcm, 1024, dfcm, 1024, bench, sizeof bench, &length);
    replaces_to(53, 3, ramp, 3, 1024, "03 00 00 00 0B 00 00 00 6F F7 01 03 00 00 00 00 00 00 00 0B 00 00 00 "
                "63 6F 69 6C 01 00 0A 00 07 00 00 00 00 00 00 00 2C 00 00 00 01 00 00 00 37 00 00 00 00 00 00 00");
    replaces_to(55, 3, ramp, 0, 1024, "00 00 00 00 08 00 00 00 03 00 00 00 00 00 00 00 08 00 00 00 "
                "63 6F 69 6C 01 00 0A 00 07 00 00 00 00 00 00 00 2C 00 00 00 01 00 00 00 34 00 00 00 00 00 00 00");
    memset(file + 52, 0xEE, 3);
    replaces_to(52, 3, zero, 1, 1024, "01 00 00 00 09 00 00 00 77 03 00 00 00 00 00 00 00 09 00 00 00 "
                "63 6F 69 6C 01 00 0A 00 07 00 00 00 00 00 00 00 2C 00 00 00 01 00 00 00 35 00 00 00 00 00 00 00");
    length = 1;
    holds(ref_replace(file, sizeof file, 53, 7, 4, zero, 1, fcm, 1024, dfcm, 1024, bench, 17, &length) == 10
          && length == 0, "a slot that is not there");
}

/* Two maps with t = 0, of 25 and 10 bytes: the later one moves down by 16 and up by 2, and its offset with it. The 16
 * bytes that are freed held the end of the old trailer, which is not all 0. */
static void worked_moves(void)
{
    const uint64_t full[] = { UINT64_MAX, 0 }, one[] = { 1 }, ramp[] = { 1, 2, 3 }, zero[] = { 0 };
    size_t length = 0;
    memset(file, 0xEE, sizeof file);
    ref_create(file, sizeof file, 7, 0, &length);
    ref_append(file, sizeof file, length, 7, 3, full, 2, fcm, 1, dfcm, 1, bench, sizeof bench, &length);
    ref_append(file, sizeof file, length, 7, 4, one, 1, fcm, 1, dfcm, 1, bench, sizeof bench, &length);
    holds(length == 91 && file[75] == 0x38 && file[79] == 2 && file[83] == 91, "the file of two maps");
    replaces_to(91, 3, zero, 1, 1, "01 00 00 00 09 00 00 00 77 01 00 00 00 0A 00 00 00 67 01 "
                "03 00 00 00 00 00 00 00 09 00 00 00 04 00 00 00 09 00 00 00 0A 00 00 00 "
                "63 6F 69 6C 01 00 00 00 07 00 00 00 00 00 00 00 38 00 00 00 02 00 00 00 4B 00 00 00 00 00 00 00");
    memset(file + 75, 0xEE, 16);
    replaces_to(75, 3, ramp, 3, 1, "03 00 00 00 0B 00 00 00 6F F7 01 01 00 00 00 0A 00 00 00 67 01 "
                "03 00 00 00 00 00 00 00 0B 00 00 00 04 00 00 00 0B 00 00 00 0A 00 00 00 "
                "63 6F 69 6C 01 00 00 00 07 00 00 00 00 00 00 00 38 00 00 00 02 00 00 00 4D 00 00 00 00 00 00 00");
}

/* Appends records to the empty file of exam 7 with t = 10, from the words 1, 2, 3, 0. */
static void list_gives(const ref_record *records, size_t count, uint32_t answer, size_t in, const char *hex)
{
    const uint64_t words[] = { 1, 2, 3, 0 };
    uint8_t expected[128];
    size_t expected_length = from_hex(hex, expected), length = 0, appended = 9;
    ref_create(file, sizeof file, 7, 10, &length);
    uint32_t answered = ref_append_all(file, sizeof file, length, 7, records, count, words, 4, fcm, 1024, dfcm, 1024,
                                       bench, sizeof bench, &appended, &length);
    holds(answered == answer && appended == in, "number and count of a list");
    holds(length == expected_length && memcmp(file, expected, length) == 0, hex);
}

/* The first map has 11 bytes, the second 9, the third 10. The fourth record is one word too long. */
static void worked_lists(void)
{
    const ref_record records[] = { { 3, 0, 3 }, { 4, 3, 1 }, { 5, 0, 1 }, { 6, 1, 4 } };
    const ref_record wraps = { 3, 2, SIZE_MAX };
    const char *of_three = "03 00 00 00 0B 00 00 00 6F F7 01 01 00 00 00 09 00 00 00 77 01 00 00 00 0A 00 00 00 67 01 "
        "03 00 00 00 00 00 00 00 0B 00 00 00 04 00 00 00 0B 00 00 00 09 00 00 00 05 00 00 00 14 00 00 00 0A 00 00 00 "
        "63 6F 69 6C 01 00 0A 00 07 00 00 00 00 00 00 00 44 00 00 00 03 00 00 00 62 00 00 00 00 00 00 00";
    list_gives(records, 3, 0, 3, of_three);
    list_gives(records, 4, 15, 3, of_three);
    list_gives(records, 0, 0, 0, "63 6F 69 6C 01 00 0A 00 07 00 00 00 00 00 00 00 "
               "20 00 00 00 00 00 00 00 20 00 00 00 00 00 00 00");
    list_gives(records + 3, 1, 15, 0, "");
    list_gives(&wraps, 1, 15, 0, "");
}

/* ---- Salvages worked by hand ---- */

static void salvage_gives(const char *old_hex, size_t kept, size_t left_over, const char *hex)
{
    uint8_t old[64], expected[128];
    size_t old_len = from_hex(old_hex, old), expected_length = from_hex(hex, expected);
    size_t length = 9, of_blocks = 9, of_bytes = 99;
    uint32_t renumbered = 9;
    memset(file, 0xEE, sizeof file);
    uint32_t answer = ref_salvage(old, old_len, file, sizeof file, 7, 10, &length, &of_blocks, &of_bytes, &renumbered);
    holds(answer == 0 && of_blocks == kept && of_bytes == left_over && renumbered == 1, "numbers of a salvage");
    holds(length == expected_length && memcmp(file, expected, length) == 0 && file[length] == 0xEE, hex);
}

static void salvage_is_refused(uint64_t exam, uint32_t t, size_t room, uint32_t number)
{
    const uint8_t zero_block[9] = { 1, 0, 0, 0, 9, 0, 0, 0, 0x77 };
    size_t length = 9, kept = 9, left_over = 9;
    uint32_t renumbered = 9;
    memset(file, 0xEE, sizeof file);
    uint32_t answer = ref_salvage(zero_block, 9, file, room, exam, t, &length, &kept, &left_over, &renumbered);
    holds(answer == number && length + kept + left_over + renumbered == 0, "a refused salvage: its number, and 0");
    holds(file[0] == 0xEE && file[52] == 0xEE, "a refused salvage writes nothing");
}

/* The file of 53 bytes, whole and cut; a wrong filler, and a padded residual, between two whole blocks; the blocks of
 * 11 and 9 bytes. */
static void worked_salvages(void)
{
    const char *of_zero = "01 00 00 00 09 00 00 00 77 00 00 00 00 00 00 00 00 09 00 00 00 "
        "63 6F 69 6C 01 00 0A 00 07 00 00 00 00 00 00 00 2C 00 00 00 01 00 00 00 35 00 00 00 00 00 00 00";
    const char *empty = "63 6F 69 6C 01 00 0A 00 07 00 00 00 00 00 00 00 "
        "20 00 00 00 00 00 00 00 20 00 00 00 00 00 00 00";
    salvage_gives("01 00 00 00 09 00 00 00 77 03 00 00 00 00 00 00 00 09 00 00 00 63 6F 69 6C 01 00 0A 00 "
                  "07 00 00 00 00 00 00 00 2C 00 00 00 01 00 00 00 35 00 00 00 00 00 00 00", 1, 44, of_zero);
    salvage_gives("01 00 00 00 09 00 00 00 77", 1, 0, of_zero);
    salvage_gives("01 00 00 00 09 00 00 00", 0, 8, empty);
    salvage_gives("", 0, 0, empty);
    salvage_gives(empty, 0, 32, empty);
    salvage_gives("01 00 00 00 09 00 00 00 77 01 00 00 00 09 00 00 00 76 01 00 00 00 09 00 00 00 77", 1, 18, of_zero);
    salvage_gives("01 00 00 00 09 00 00 00 77 01 00 00 00 0A 00 00 00 67 00 01 00 00 00 09 00 00 00 77", 1, 19,
                  of_zero);
    salvage_gives("03 00 00 00 0B 00 00 00 6F F7 01 01 00 00 00 09 00 00 00 77 01", 2, 1,
                  "03 00 00 00 0B 00 00 00 6F F7 01 01 00 00 00 09 00 00 00 77 "
                  "00 00 00 00 00 00 00 00 0B 00 00 00 01 00 00 00 0B 00 00 00 09 00 00 00 "
                  "63 6F 69 6C 01 00 0A 00 07 00 00 00 00 00 00 00 38 00 00 00 02 00 00 00 4C 00 00 00 00 00 00 00");
    salvage_is_refused(0, 17, 52, 8);
    salvage_is_refused(7, 17, 52, 7);
    salvage_is_refused(7, 16, 52, 3);
}

/* ---- Round trips and room ---- */

/* The least room that the promise allows: over every way to cut the words into runs of one fixed
 * difference, each run costs 8(t/2 rounded up + 2), or 8(t/6 rounded up + 1) where the words are equal. */
static uint64_t promised_length(const uint64_t *words, size_t count, unsigned t)
{
    static uint64_t least[MOST + 1];
    uint64_t of_a_ramp = 8 * ((t + 1) / 2 + 2);
    uint64_t of_equal_words = 8 * ((t + 5) / 6 + 1);
    least[0] = 0;
    for (size_t end = 1; end <= count; end++) {
        least[end] = UINT64_MAX;
        for (size_t start = end; start-- > 0;) {
            uint64_t difference = end - start > 1 ? words[end - 1] - words[end - 2] : 0;
            if (end - start > 1 && words[start + 1] - words[start] != difference) {
                break;
            }
            uint64_t with = least[start] + (difference == 0 ? of_equal_words : of_a_ramp);
            least[end] = with < least[end] ? with : least[end];
        }
    }
    uint64_t codes = 8 + (count + 1) / 2;
    return codes + (least[count] < 8 * count ? least[count] : 8 * count);
}

/* The block that was packed last gives the words. */
static void gives(const uint64_t *words, size_t count, unsigned t, size_t length, const char *kind)
{
    static uint64_t back[MOST];
    size_t unpacked = 0;
    holds(ref_check(block, length) == 0, "a packed block is well formed");
    uint32_t answer = ref_unpack(block, length, fcm, (size_t)1 << t, dfcm, (size_t)1 << t,
                                 back, count, &unpacked);
    holds(answer == 0 && unpacked == count && memcmp(words, back, 8 * count) == 0, kind);
}

static void there_and_back(kind_of_words kind, unsigned t, size_t count)
{
    static uint64_t words[MOST];
    make_words(kind, words, count);
    size_t length = pack(words, count, t);
    holds(length <= promised_length(words, count, t), "the promised room");
    gives(words, count, t, length, kind_names[kind]);
    holds(ref_pack_before(words, count, fcm, dfcm, (size_t)1 << t, block) == length, "as long as before");
    gives(words, count, t, length, kind_names[kind]);
}

static void round_trips(void)
{
    for (unsigned t = 0; t <= 16; t++) {
        for (unsigned kind = 0; kind < KINDS; kind++) {
            for (size_t count = 0; count <= MOST; count += 1 + random_below(120)) {
                there_and_back((kind_of_words)kind, t, count);
            }
        }
    }
}

int main(void)
{
    seed_random(1);
    worked_blocks();
    worked_before();
    worked_refusals();
    worked_padding();
    table_of_codes();
    worked_hashes();
    worked_files();
    worked_replaces();
    worked_moves();
    worked_lists();
    worked_salvages();
    round_trips();
    printf("%u passed, %u failed\n", passed, failed);
    return failed != 0;
}
