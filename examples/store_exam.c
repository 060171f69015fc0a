/* Keeps the coil sensitivity maps of one exam in one file: stores sixteen by one call, reads one back, appends two more
 * from a list whose second record is refused, mended and gone on with, and replaces one.
 *
 * The memory here is static and sized by the macros of coil.h. The file stays in memory: exam_on_disk.c, beside
 * this one, keeps it on disk.
 */
#include "coil.h"

#include <stdio.h>
#include <stdlib.h>
#include <string.h>

#define MAPS 16u                    /* one slot a coil */
#define ADDED 2u                    /* maps that are appended later */
#define ADDED_COIL MAPS             /* the first of their coils, each at a place of its own */
#define MOVED_COIL (MAPS + ADDED)
#define SIDE 64u                    /* a map is SIDE x SIDE values */
#define VALUES (SIDE * SIDE)
#define T 10u                       /* tables of 2^10 words */
#define EXAM UINT64_C(20240117)

/* Room for every map at its worst; the maps will need far less. */
static uint8_t file[COIL_FILE_ROOM(MAPS + ADDED, VALUES)];
static uint8_t bench[COIL_WORST(VALUES)];
static uint64_t fcm[COIL_TABLE_WORDS(T)];
static uint64_t dfcm[COIL_TABLE_WORDS(T)];
static uint64_t words[MAPS * VALUES];       /* the maps of all coils, one behind the other */
static uint64_t map[VALUES];                /* one map */
static uint64_t fetched[VALUES];

/* Every answer is looked at: a call that was not done must not go by unseen. */
static void must_be(uint32_t expected, uint32_t answer, const char *what)
{
    if (answer != expected) {
        printf("%s: answered %u, expected %u\n", what, (unsigned)answer, (unsigned)expected);
        exit(1);
    }
}

/* A made map: the coil sees more of what is near. Outside a disc is air, 0: about 80 % of the area.
 * Only +, -, * and / on doubles, so that C99 compilers agree on the bits. */
static void make_map(unsigned coil, uint64_t *to)
{
    double coil_x = (double)(coil % 4) * 20.0 + 2.0;
    double coil_y = (double)(coil / 4) * 20.0 + 2.0;
    for (unsigned i = 0; i < VALUES; i++) {
        double x = (double)(i % SIDE);
        double y = (double)(i / SIDE);
        double from_middle = (x - 31.5) * (x - 31.5) + (y - 31.5) * (y - 31.5);
        double from_coil = (x - coil_x) * (x - coil_x) + (y - coil_y) * (y - coil_y);
        double value = from_middle < 260.0 ? 1.0 / (1.0 + from_coil / 400.0) : 0.0;
        memcpy(&to[i], &value, sizeof value);
    }
}

/* Appends the maps of a list, whose words are among the first words_len of all. */
static uint32_t append_list(size_t length, const coil_record *records, size_t count, size_t words_len,
                            size_t *appended, size_t *new_length)
{
    return coil_append_all(file, sizeof file, length, EXAM, records, count, words, words_len,
                           fcm, COIL_TABLE_WORDS(T), dfcm, COIL_TABLE_WORDS(T),
                           bench, sizeof bench, appended, new_length);
}

static size_t store_all_maps(void)
{
    coil_record records[MAPS];
    size_t length, appended, new_length;
    for (uint32_t slot = 0; slot < MAPS; slot++) {
        records[slot].slot = slot;
        records[slot].first = (size_t)slot * VALUES;
        records[slot].count = VALUES;
        make_map(slot, words + records[slot].first);
    }
    must_be(COIL_DONE, coil_create(file, sizeof file, EXAM, T, &length), "create");
    printf("created an empty file of %zu bytes\n", length);
    must_be(COIL_DONE, append_list(length, records, MAPS, MAPS * VALUES, &appended, &new_length), "append all");
    printf("%zu maps of %zu bytes were appended in one call: the file has %zu bytes\n", appended, sizeof map,
           new_length);
    return new_length;
}

static void print_blocks(size_t length)
{
    for (uint32_t slot = 0; slot < MAPS; slot++) {
        size_t offset, block_length;
        must_be(COIL_DONE, coil_find(file, sizeof file, length, EXAM, slot, &offset, &block_length), "find");
        printf("slot %2u: %zu bytes of values, a block of %zu\n", (unsigned)slot, sizeof map, block_length);
    }
}

/* Every bit of a slot is compared with the map of a coil. */
static void must_hold_map_of(size_t length, uint32_t slot, unsigned coil)
{
    size_t count;
    must_be(COIL_DONE, coil_fetch(file, sizeof file, length, EXAM, slot, fcm, COIL_TABLE_WORDS(T),
                                  dfcm, COIL_TABLE_WORDS(T), fetched, VALUES, &count), "fetch");
    make_map(coil, map);
    if (count != VALUES || memcmp(fetched, map, sizeof map) != 0) {
        printf("slot %u came back different\n", (unsigned)slot);
        exit(1);
    }
}

static void read_back(size_t length, uint32_t slot)
{
    size_t offset, block_length;
    must_be(COIL_WRONG_EXAM, coil_open(file, sizeof file, length, EXAM + 1), "open as another exam");
    printf("opened as another exam: refused with %u\n", (unsigned)COIL_WRONG_EXAM);
    must_be(COIL_DONE, coil_open(file, sizeof file, length, EXAM), "open");
    printf("opened as the right exam\n");
    must_be(COIL_DONE, coil_find(file, sizeof file, length, EXAM, slot, &offset, &block_length), "find");
    printf("slot %u is the %zu bytes from byte %zu\n", (unsigned)slot, block_length, offset);
    must_be(COIL_DONE, coil_check(file + offset, block_length), "check");
    must_hold_map_of(length, slot, slot);
    printf("fetched %u values of slot %u, every bit as it was\n", VALUES, (unsigned)slot);
}

/* Two coils more. The second record begins a word too late, so it reaches beyond the words and is refused. What went in
 * before it stays, and the new length counts. The record is mended, and the call goes on from it. */
static size_t append_and_go_on(size_t length)
{
    coil_record records[ADDED] = { { MAPS, 0, VALUES }, { MAPS + 1, VALUES + 1, VALUES } };
    size_t appended, new_length;
    make_map(ADDED_COIL, words);
    make_map(ADDED_COIL + 1, words + VALUES);
    must_be(COIL_BAD_RECORD, append_list(length, records, ADDED, ADDED * VALUES, &appended, &new_length),
            "append a list with a bad record");
    printf("a list of %u: record %zu is refused with %u, what went in before stays, the file has %zu bytes\n", ADDED,
           appended, (unsigned)COIL_BAD_RECORD, new_length);
    if (new_length != 0)
        length = new_length;
    records[appended].first = VALUES;
    must_be(COIL_DONE, append_list(length, records + appended, ADDED - appended, ADDED * VALUES, &appended,
                                   &new_length), "go on with the list");
    printf("mended, and gone on with: %zu more went in, the file has %zu bytes\n", appended, new_length);
    return new_length;
}

/* One coil was moved and calibrated again. COIL_FILE_ROOM is room enough to replace any map by any other. */
static void replace_map(size_t length, uint32_t slot)
{
    size_t new_length;
    make_map(MOVED_COIL, map);
    must_be(COIL_DONE, coil_replace(file, sizeof file, length, EXAM, slot, map, VALUES,
                                    fcm, COIL_TABLE_WORDS(T), dfcm, COIL_TABLE_WORDS(T),
                                    bench, sizeof bench, &new_length), "replace");
    printf("replaced slot %u: the file had %zu bytes and has %zu\n", (unsigned)slot, length, new_length);
    for (uint32_t each = 0; each < MAPS + ADDED; each++)
        must_hold_map_of(new_length, each, each == slot ? MOVED_COIL : each);
    printf("slot %u gives the new map, every other slot its own, every bit as it was\n", (unsigned)slot);
}

int main(void)
{
    size_t length = store_all_maps();
    print_blocks(length);
    read_back(length, 11);
    length = append_and_go_on(length);
    replace_map(length, 11);
    return 0;
}
