/* Uses every constant, macro and declaration of coil.h. Compiled as C99 and again as C++17.
 *
 * A wrong type of a declaration does not compile; a wrong value is counted as failed.
 */
#include "coil.h"

#include <stdio.h>

/* Each pointer takes its call only where the types are exactly these. */
static uint32_t (*const check)(const uint8_t *, size_t) = coil_check;
static uint32_t (*const pack)(const uint64_t *, size_t, uint64_t *, size_t, uint64_t *, size_t,
                              uint8_t *, size_t, size_t *) = coil_pack;
static uint32_t (*const unpack)(const uint8_t *, size_t, uint64_t *, size_t, uint64_t *, size_t,
                                uint64_t *, size_t, size_t *) = coil_unpack;
static uint32_t (*const create)(uint8_t *, size_t, uint64_t, uint32_t, size_t *) = coil_create;
static uint32_t (*const open_file)(const uint8_t *, size_t, size_t, uint64_t) = coil_open;
static uint32_t (*const find)(const uint8_t *, size_t, size_t, uint64_t, uint32_t,
                              size_t *, size_t *) = coil_find;
static uint32_t (*const fetch)(const uint8_t *, size_t, size_t, uint64_t, uint32_t,
                               uint64_t *, size_t, uint64_t *, size_t,
                               uint64_t *, size_t, size_t *) = coil_fetch;
static uint32_t (*const append)(uint8_t *, size_t, size_t, uint64_t, uint32_t, const uint64_t *, size_t,
                                uint64_t *, size_t, uint64_t *, size_t,
                                uint8_t *, size_t, size_t *) = coil_append;
static uint32_t (*const append_all)(uint8_t *, size_t, size_t, uint64_t, const coil_record *, size_t,
                                    const uint64_t *, size_t, uint64_t *, size_t, uint64_t *, size_t,
                                    uint8_t *, size_t, size_t *, size_t *) = coil_append_all;
static uint32_t (*const replace)(uint8_t *, size_t, size_t, uint64_t, uint32_t, const uint64_t *, size_t,
                                 uint64_t *, size_t, uint64_t *, size_t,
                                 uint8_t *, size_t, size_t *) = coil_replace;
static uint32_t (*const salvage)(const uint8_t *, size_t, uint8_t *, size_t, uint64_t, uint32_t,
                                 size_t *, size_t *, size_t *, uint32_t *) = coil_salvage;

static unsigned passed;
static unsigned failed;

static void is(const char *what, uint64_t value, uint64_t expected)
{
    if (value == expected) {
        passed++;
    } else {
        failed++;
        printf("FAILED %s: %llu, not %llu\n", what,
               (unsigned long long)value, (unsigned long long)expected);
    }
}

static void numbers_and_limits(void)
{
    const uint32_t in_order[14] = {
        COIL_DONE, COIL_BAD_TABLES, COIL_TOO_MANY_WORDS, COIL_NO_ROOM, COIL_TOO_SHORT,
        COIL_BAD_BLOCK_LENGTH, COIL_BAD_FILLER, COIL_BAD_TRAILER, COIL_WRONG_EXAM, COIL_BAD_DIRECTORY,
        COIL_NO_SUCH_SLOT, COIL_SLOT_NOT_ABOVE, COIL_FILE_FULL, COIL_PADDED
    };
    for (uint32_t number = 0; number < 14; number++) {
        is("number", in_order[number], number);
    }
    is("number of a bad record", COIL_BAD_RECORD, 15);
    is("most words", COIL_MOST_WORDS, 65536);
    is("most bytes", COIL_MOST_FILE_BYTES, 16777216);
    is("most entries", COIL_MOST_ENTRIES, 1024);
    is("most t", COIL_MOST_T, 16);
    is("empty file", COIL_EMPTY_FILE, 32);
    is("table, t = 0", COIL_TABLE_WORDS(0), 1);
    is("table, t = 16", COIL_TABLE_WORDS(COIL_MOST_T), 65536);
    is("worst of 0", COIL_WORST(0), 8);
    is("worst of 1", COIL_WORST(1), 17);
    is("worst of 1 + 2", COIL_WORST(1 + 2), 34);
    is("worst of all", COIL_WORST(COIL_MOST_WORDS), 557064);
    is("append room", COIL_APPEND_ROOM(32, 1), 61);
    is("file room", COIL_FILE_ROOM(1 + 1, 1), 90);
    is("append room of a sum", 2 * COIL_APPEND_ROOM(30 + 2, 1 + 0), 122);
    is("replace room", COIL_REPLACE_ROOM(53, 9, 1), 61);
    is("replace room for a shorter block", COIL_REPLACE_ROOM(100, 60, 1), 100);
    is("replace room of sums", 2 * COIL_REPLACE_ROOM(50 + 3, 10 - 1, 1 + 0), 122);
    is("salvage room of no byte", COIL_SALVAGE_ROOM(0), 32);
    is("salvage room without a block", COIL_SALVAGE_ROOM(7), 39);
    is("salvage room for 6 blocks", COIL_SALVAGE_ROOM(53), 157);
    is("salvage room of a sum", 2 * COIL_SALVAGE_ROOM(50 + 3), 314);
    is("salvage room for 1,024 blocks", COIL_SALVAGE_ROOM(8192), 20512);
    is("salvage room for no more", COIL_SALVAGE_ROOM(8200), 20520);
    is("salvage room beyond 32 bits", COIL_SALVAGE_ROOM((size_t)1 << 33), ((uint64_t)1 << 33) + 12320);
}

/* The library reads records by these places. */
static void layout_of_a_record(void)
{
    is("size of a record", sizeof(coil_record), 24);
    is("its slot", offsetof(coil_record, slot), 0);
    is("bytes of a slot", sizeof(((coil_record *)0)->slot), 4);
    is("its first word", offsetof(coil_record, first), 8);
    is("its count", offsetof(coil_record, count), 16);
    is("bytes of a count", sizeof(((coil_record *)0)->count), 8);
}

static uint8_t file[COIL_FILE_ROOM(3, 2)];
static uint8_t bench[COIL_WORST(2)];
static uint64_t fcm[COIL_TABLE_WORDS(3)];
static uint64_t dfcm[COIL_TABLE_WORDS(3)];

static void every_call_once(void)
{
    const uint64_t words[2] = { 1, 3 };
    uint64_t back[2] = { 0, 0 };
    size_t block = 0, count = 0, length = 0, offset = 1;

    is("pack", pack(words, 2, fcm, 8, dfcm, 8, bench, sizeof bench, &block), COIL_DONE);
    is("check", check(bench, block), COIL_DONE);
    is("count in a block", bench[0] + 256u * bench[1] + bench[2] + bench[3], 2);
    is("unpack", unpack(bench, block, fcm, 8, dfcm, 8, back, 2, &count), COIL_DONE);
    is("words", 10 * back[0] + back[1] + count, 15);
    is("create", create(file, sizeof file, 7, 3, &length), COIL_DONE);
    is("append", append(file, sizeof file, length, 7, 5, words, 2, fcm, 8, dfcm, 8,
                        bench, sizeof bench, &length), COIL_DONE);
    is("open", open_file(file, sizeof file, length, 7), COIL_DONE);
    is("t in a file", file[length - 26] + 256u * file[length - 25], 3);
    is("entries in a file", file[length - 12] + 256u * file[length - 11], 1);
    is("find", find(file, sizeof file, length, 7, 5, &offset, &block), COIL_DONE);
    is("place", offset + block, length - 44);
    is("fetch", fetch(file, sizeof file, length, 7, 5, fcm, 8, dfcm, 8, back, 2, &count), COIL_DONE);
    is("words", 10 * back[0] + back[1] + count, 15);
    is("replace", replace(file, sizeof file, length, 7, 5, words, 1, fcm, 8, dfcm, 8,
                          bench, sizeof bench, &length), COIL_DONE);
    is("one byte less", length, 54);
    is("fetch what replaced them", fetch(file, sizeof file, length, 7, 5, fcm, 8, dfcm, 8, back, 2, &count),
       COIL_DONE);
    is("one word", 10 * back[0] + count, 11);
}

/* The word 0 as no packer writes it: by a code that has a byte, and with the byte 0. */
static void a_padded_block(void)
{
    const uint8_t block[10] = { 1, 0, 0, 0, 10, 0, 0, 0, 0x67, 0 };
    uint64_t back[1] = { 5 };
    size_t count = 9;

    is("check what is padded", check(block, sizeof block), COIL_PADDED);
    is("unpack what is padded", unpack(block, sizeof block, fcm, 8, dfcm, 8, back, 1, &count), COIL_PADDED);
    is("nothing answered", 10 * back[0] + count, 50);
}

/* To the file that every_call_once left: the second record is refused, mended, and gone on with. */
static void a_list(void)
{
    const uint64_t words[2] = { 1, 3 };
    struct coil_record list[2] = { { 6, 1, 1 }, { 7, 0, 3 } };
    uint64_t back[2] = { 0, 0 };
    size_t length = 54, appended = 9, new_length = 9, count = 0;

    is("append_all without a record", append_all(file, sizeof file, length, 7, list, 0, words, 2, fcm, 8, dfcm, 8,
                                                 bench, sizeof bench, &appended, &new_length), COIL_DONE);
    is("none in, and the length", 1000 * appended + new_length, 54);
    is("append_all", append_all(file, sizeof file, length, 7, list, 2, words, 2, fcm, 8, dfcm, 8,
                                bench, sizeof bench, &appended, &new_length), COIL_BAD_RECORD);
    is("one in, of 10 bytes", 1000 * appended + new_length, 1076);
    length = new_length;
    list[appended].count = 2;
    is("append_all again", append_all(file, sizeof file, length, 7, list + appended, 2 - appended, words, 2, fcm, 8,
                                      dfcm, 8, bench, sizeof bench, &appended, &new_length), COIL_DONE);
    is("one in, of 11 bytes", 1000 * appended + new_length, 1099);
    is("fetch from a list", fetch(file, sizeof file, new_length, 7, 6, fcm, 8, dfcm, 8, back, 2, &count), COIL_DONE);
    is("one word", 10 * back[0] + count, 31);
    is("fetch the last of a list", fetch(file, sizeof file, new_length, 7, 7, fcm, 8, dfcm, 8, back, 2, &count),
       COIL_DONE);
    is("two words", 10 * back[0] + back[1] + count, 15);
}

/* What a full disk left of the file that a_list left: blocks of 10, 10 and 11 bytes, of which the third is cut. */
static void a_salvage(void)
{
    static uint8_t made[COIL_SALVAGE_ROOM(25)];
    uint64_t back[2] = { 0, 0 };
    size_t length = 9, kept = 9, left_over = 9, count = 0;
    uint32_t renumbered = 9;

    is("salvage", salvage(file, 25, made, sizeof made, 8, 3, &length, &kept, &left_over, &renumbered), COIL_DONE);
    is("two kept, and five bytes left over", 1000 * length + 100 * kept + 10 * left_over + renumbered, 76251);
    is("fetch what was salvaged", fetch(made, sizeof made, length, 8, 1, fcm, 8, dfcm, 8, back, 2, &count), COIL_DONE);
    is("one word", 10 * back[0] + count, 31);
    is("salvage for no exam", salvage(file, 25, made, sizeof made, 0, 3, &length, &kept, &left_over, &renumbered),
       COIL_WRONG_EXAM);
    is("nothing answered", length + kept + left_over + renumbered, 0);
}

int main(void)
{
    numbers_and_limits();
    layout_of_a_record();
    every_call_once();
    a_padded_block();
    a_list();
    a_salvage();
    printf("%u passed, %u failed\n", passed, failed);
    return failed != 0;
}
