/* replace TABLE: what replacing the first of thirty maps costs beside C's memmove of the bytes that it moves.
 *
 * The maps are noise, so the file has nearly as many bytes as one may have, and all but the first block's move.
 * Two versions of the first map take turns; the block of the second is one byte shorter, so that the bytes move by
 * one, up and down. A move by so little is the hard case: the two places overlap in all but a byte. */
#include "clock.h"
#include "inputs.h"
#include "machine.h"

#include "../include/coil.h"

#include <stdio.h>
#include <string.h>

#define MAPS 30u
#define T 10u
#define EXAM 77u
#define ROUNDS 200

static uint8_t file[COIL_MOST_FILE_BYTES], twin[COIL_MOST_FILE_BYTES], bench[COIL_WORST(MOST_WORDS)];
static uint64_t fcm[COIL_TABLE_WORDS(T)], dfcm[COIL_TABLE_WORDS(T)];
static uint64_t first[2][MOST_WORDS];           /* the first map, and the one with a block shorter by a byte */
static size_t block_length[2];

typedef struct {
    double call, pack, move;                    /* the shortest times */
} times;

static size_t packed(const uint64_t *words)
{
    size_t length;
    uint32_t number = coil_pack(words, MOST_WORDS, fcm, COIL_TABLE_WORDS(T), dfcm, COIL_TABLE_WORDS(T), bench,
                                sizeof bench, &length);
    return number == COIL_DONE ? length : 0;
}

static void fill(uint64_t *words, uint64_t seed)
{
    for (size_t i = 0; i < MOST_WORDS; i++) {
        words[i] = random_word(&seed);
    }
}

/* The last word decides its own residual alone: others are tried for it until the block is shorter by a byte. */
static int choose_first_maps(void)
{
    uint64_t seed = 31;
    fill(first[0], 1);
    memcpy(first[1], first[0], sizeof first[0]);
    block_length[0] = packed(first[0]);
    for (int tries = 0; tries < 10000 && block_length[1] + 1 != block_length[0]; tries++) {
        first[1][MOST_WORDS - 1] = random_word(&seed);
        block_length[1] = packed(first[1]);
    }
    return block_length[1] + 1 == block_length[0];
}

static uint32_t append(uint8_t *to, size_t *length, uint32_t slot, const uint64_t *words)
{
    return coil_append(to, sizeof file, *length, EXAM, slot, words, MOST_WORDS, fcm, COIL_TABLE_WORDS(T), dfcm,
                       COIL_TABLE_WORDS(T), bench, sizeof bench, length);
}

/* The file of all maps, with this version of the first. Answers its length, or 0. */
static size_t make_file(uint8_t *to, int version)
{
    static uint64_t words[MOST_WORDS];
    size_t length;
    uint32_t number = coil_create(to, sizeof file, EXAM, T, &length);
    for (uint32_t slot = 0; slot < MAPS && number == COIL_DONE; slot++) {
        fill(words, slot + 1);
        number = append(to, &length, slot, slot == 0 ? first[version] : words);
    }
    return number == COIL_DONE ? length : 0;
}

/* One replace by a version of the first map, the packing alone, and memmove of the same bytes between the same
 * places of a twin. The trailer is written and not moved. Answers the new length, or 0. */
static size_t one_round(size_t length, int version, times *t)
{
    size_t from = block_length[1 - version], to = block_length[version], new_length;
    double start = now_ns();
    uint32_t number = coil_replace(file, sizeof file, length, EXAM, 0, first[version], MOST_WORDS, fcm,
                                   COIL_TABLE_WORDS(T), dfcm, COIL_TABLE_WORDS(T), bench, sizeof bench, &new_length);
    keep_shortest(&t->call, start);
    start = now_ns();
    packed(first[version]);
    keep_shortest(&t->pack, start);
    start = now_ns();
    memmove(twin + to, twin + from, length - 32 - from);
    keep_shortest(&t->move, start);
    return number == COIL_DONE ? new_length : 0;
}

static int as_made_afresh(size_t length, int version)
{
    return make_file(twin, version) == length && memcmp(file, twin, length) == 0;
}

static int measure_all(times t[2])
{
    size_t length = make_file(file, 0);
    for (int round = 0; round < 2 * ROUNDS && length != 0; round++) {
        int version = 1 - round % 2;
        length = one_round(length, version, &t[version]);
        if (round < 2 && (length == 0 || !as_made_afresh(length, version))) {
            return 0;
        }
    }
    return length != 0;
}

static void write_row(FILE *to, const char *what, const times *t)
{
    fprintf(to, "| %s | %.2f | %.2f | %.2f | **%.2f** |\n", what, t->call / 1e6, t->pack / 1e6, t->move / 1e6,
            (t->call - t->pack) / t->move);
}

int main(int argc, char **argv)
{
    times t[2] = { { 0, 0, 0 }, { 0, 0, 0 } };
    if (argc != 2) {
        fprintf(stderr, "usage: replace TABLE\n");
        return 2;
    }
    if (emulated() != NULL) {
        fprintf(stderr, "bench: nothing measured: %s\n", emulated());
        return 3;
    }
    if (!choose_first_maps() || !measure_all(t)) {
        fprintf(stderr, "bench: a call is refused, or the file is not the one made afresh\n");
        return 1;
    }
    FILE *to = fopen(argv[1], "w");
    if (to == NULL) {
        return 2;
    }
    fprintf(to, "| block | replace, ms | pack, ms | memmove, ms | replace less pack, to memmove |\n"
                "|---|--:|--:|--:|--:|\n");
    write_row(to, "one byte longer", &t[0]);
    write_row(to, "one byte shorter", &t[1]);
    return fclose(to) == 0 ? 0 : 2;
}
