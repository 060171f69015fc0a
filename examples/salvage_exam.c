/* A full disk cut an exam file. This makes such a file, cuts it, and salvages what is left: the maps whose blocks are
 * whole come back, under new slot numbers. With the scan log they are then kept under their old ones.
 *
 * The file stays in memory here. To salvage one on disk, read it into a buffer as it is: its length is how many bytes
 * there are. (Of a file that exam_on_disk.c was writing, leave out the first 8 bytes, the hash.)
 */
#include "coil.h"

#include <stdio.h>
#include <stdlib.h>
#include <string.h>

#define MAPS 6u
#define VALUES 1024u                /* words of a map */

/* What the scan log says of the exam: its number, its t, and the slots in the order in which they were stored. The
 * blocks in a file stand in this order. */
#define EXAM UINT64_C(20240117)
#define T 10u
static const uint32_t logged_slots[MAPS] = { 0, 1, 4, 5, 8, 9 };

static uint8_t file[COIL_FILE_ROOM(MAPS, VALUES)];
static uint8_t salvaged[COIL_SALVAGE_ROOM(sizeof file)];
static uint8_t restored[COIL_FILE_ROOM(MAPS, VALUES)];
static uint8_t bench[COIL_WORST(VALUES)];
static uint64_t fcm[COIL_TABLE_WORDS(T)];
static uint64_t dfcm[COIL_TABLE_WORDS(T)];
static uint64_t words[VALUES];
static uint64_t fetched[VALUES];

/* Every answer is looked at: a call that was not done must not go by unseen. */
static void must_be(uint32_t expected, uint32_t answer, const char *what)
{
    if (answer != expected) {
        printf("%s: answered %u, expected %u\n", what, (unsigned)answer, (unsigned)expected);
        exit(1);
    }
}

/* A made map: a bell of its own place for each coil, and air beside it. */
static void make_map(unsigned coil)
{
    for (unsigned i = 0; i < VALUES; i++) {
        double from_coil = (double)i - 128.0 * coil - 64.0;
        double value = from_coil * from_coil < 40000.0 ? 1.0 / (1.0 + from_coil * from_coil / 400.0) : 0.0;
        memcpy(&words[i], &value, sizeof value);
    }
}

/* Appends the words as a slot, and answers the file's new length. */
static size_t append(uint8_t *to, size_t room, size_t length, uint32_t slot, const uint64_t *map)
{
    size_t new_length;
    must_be(COIL_DONE, coil_append(to, room, length, EXAM, slot, map, VALUES,
                                   fcm, COIL_TABLE_WORDS(T), dfcm, COIL_TABLE_WORDS(T),
                                   bench, sizeof bench, &new_length), "append");
    return new_length;
}

static size_t store_exam(void)
{
    size_t length;
    must_be(COIL_DONE, coil_create(file, sizeof file, EXAM, T, &length), "create");
    for (unsigned i = 0; i < MAPS; i++) {
        make_map(i);
        length = append(file, sizeof file, length, logged_slots[i], words);
    }
    printf("an exam of %u maps was stored: a file of %zu bytes\n", MAPS, length);
    return length;
}

/* The disk was full in the middle of a block: neither the rest of it nor the directory and the trailer were written. */
static size_t cut_in(size_t length, uint32_t slot)
{
    size_t offset, block_length;
    must_be(COIL_DONE, coil_find(file, sizeof file, length, EXAM, slot, &offset, &block_length), "find");
    size_t left = offset + block_length / 2;
    printf("a full disk cut it in the block of slot %u: %zu bytes are left\n", (unsigned)slot, left);
    must_be(COIL_BAD_TRAILER, coil_open(file, sizeof file, left, EXAM), "open what is left");
    printf("opened: refused with %u\n", (unsigned)COIL_BAD_TRAILER);
    return left;
}

/* Each map that was kept has its place in the log as its slot. Here it is compared with what was stored, bit by bit, and
 * kept once more under its old slot number. */
static void restore(size_t salvaged_length, size_t kept)
{
    size_t length, count;
    if (kept > MAPS) {
        printf("more blocks were kept than maps were stored: these are not the bytes of this exam alone\n");
        exit(1);
    }
    must_be(COIL_DONE, coil_create(restored, sizeof restored, EXAM, T, &length), "create");
    for (uint32_t i = 0; i < kept; i++) {
        must_be(COIL_DONE, coil_fetch(salvaged, sizeof salvaged, salvaged_length, EXAM, i, fcm, COIL_TABLE_WORDS(T),
                                      dfcm, COIL_TABLE_WORDS(T), fetched, VALUES, &count), "fetch");
        make_map(i);
        if (count != VALUES || memcmp(fetched, words, sizeof words) != 0) {
            printf("slot %u came back different\n", (unsigned)i);
            exit(1);
        }
        length = append(restored, sizeof restored, length, logged_slots[i], fetched);
        printf("slot %u is the map of the old slot %u, every bit as it was\n", (unsigned)i, (unsigned)logged_slots[i]);
    }
    printf("under their old numbers they are a file of %zu bytes\n", length);
    for (size_t i = kept; i < MAPS; i++)
        printf("the map of slot %u is lost: scan it again\n", (unsigned)logged_slots[i]);
}

int main(void)
{
    size_t new_length, kept, left_over;
    uint32_t renumbered;
    size_t left = cut_in(store_exam(), logged_slots[4]);
    must_be(COIL_DONE, coil_salvage(file, left, salvaged, sizeof salvaged, EXAM, T,
                                    &new_length, &kept, &left_over, &renumbered), "salvage");
    printf("salvaged: %zu maps kept, %zu bytes left over, slots renumbered: %s; a file of %zu bytes\n", kept, left_over,
           renumbered == 1 ? "yes" : "no", new_length);
    must_be(COIL_DONE, coil_open(salvaged, sizeof salvaged, new_length, EXAM), "open what was salvaged");
    restore(new_length, kept);
    return 0;
}
