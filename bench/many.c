/* many TABLE: what appending a list of maps by one call costs beside appending the same maps one by one.
 *
 * One by one each append opens the file, which reads the whole directory. By one call it is opened once. With many
 * short maps that is what counts; with sixteen large ones it is the packing. */
#include "clock.h"
#include "inputs.h"
#include "machine.h"

#include "../include/coil.h"

#include <stdio.h>
#include <string.h>

#define T 10u
#define EXAM 77u
#define ROUNDS 200

static uint8_t file[COIL_MOST_FILE_BYTES], twin[COIL_MOST_FILE_BYTES], bench[COIL_WORST(MOST_WORDS)];
static uint64_t fcm[COIL_TABLE_WORDS(T)], dfcm[COIL_TABLE_WORDS(T)];
static uint64_t words[MOST_WORDS];
static coil_record records[COIL_MOST_ENTRIES];

typedef struct {
    double at_once, one_by_one;                 /* the shortest times */
} times;

/* All maps have the same words: a record may take those of another. */
static void make_list(size_t maps, size_t count)
{
    for (size_t i = 0; i < maps; i++) {
        records[i].slot = (uint32_t)i;
        records[i].first = 0;
        records[i].count = count;
    }
}

static size_t at_once(size_t maps, size_t count)
{
    size_t length, appended, new_length;
    uint32_t number = coil_create(file, sizeof file, EXAM, T, &length);
    number = number != COIL_DONE ? number
           : coil_append_all(file, sizeof file, length, EXAM, records, maps, words, count, fcm, COIL_TABLE_WORDS(T),
                             dfcm, COIL_TABLE_WORDS(T), bench, sizeof bench, &appended, &new_length);
    return number == COIL_DONE ? new_length : 0;
}

static size_t one_by_one(size_t maps)
{
    size_t length;
    uint32_t number = coil_create(twin, sizeof twin, EXAM, T, &length);
    for (size_t i = 0; i < maps && number == COIL_DONE; i++) {
        number = coil_append(twin, sizeof twin, length, EXAM, records[i].slot, words + records[i].first,
                             records[i].count, fcm, COIL_TABLE_WORDS(T), dfcm, COIL_TABLE_WORDS(T), bench,
                             sizeof bench, &length);
    }
    return number == COIL_DONE ? length : 0;
}

/* The two take turns. They must make the same file. */
static int measure(size_t maps, size_t count, times *t)
{
    make_list(maps, count);
    for (int round = 0; round < ROUNDS; round++) {
        double start = now_ns();
        size_t length = at_once(maps, count);
        keep_shortest(&t->at_once, start);
        start = now_ns();
        size_t same = one_by_one(maps);
        keep_shortest(&t->one_by_one, start);
        if (length == 0 || length != same || memcmp(file, twin, length) != 0) {
            return 0;
        }
    }
    return 1;
}

static void write_row(FILE *to, const char *what, const times *t)
{
    fprintf(to, "| %s | %.3f | %.3f | **%.2f** |\n", what, t->at_once / 1e6, t->one_by_one / 1e6,
            t->at_once / t->one_by_one);
}

int main(int argc, char **argv)
{
    times short_ones = { 0, 0 }, large_ones = { 0, 0 };
    if (argc != 2) {
        fprintf(stderr, "usage: many TABLE\n");
        return 2;
    }
    if (emulated() != NULL) {
        fprintf(stderr, "bench: nothing measured: %s\n", emulated());
        return 3;
    }
    inputs[1].fill(words, MOST_WORDS);
    if (!measure(COIL_MOST_ENTRIES, 1, &short_ones) || !measure(16, MOST_WORDS, &large_ones)) {
        fprintf(stderr, "bench: a call is refused, or the two files differ\n");
        return 1;
    }
    FILE *to = fopen(argv[1], "w");
    if (to == NULL) {
        return 2;
    }
    fprintf(to, "| maps | one call, ms | one by one, ms | one call to one by one |\n"
                "|---|--:|--:|--:|\n");
    write_row(to, "1,024 of one word", &short_ones);
    write_row(to, "16 of 65,536 words (the coil map)", &large_ones);
    return fclose(to) == 0 ? 0 : 2;
}
