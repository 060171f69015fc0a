/* Writes the two samples that stand beside this file: map.words, a map of 4,096 values as the packer
 * takes it, and exam.coil, an exam file with five slots as the lister takes it.
 *
 *     samples FOLDER
 */
#include "coil.h"
#include "sample_map.h"

#include <stdio.h>
#include <stdlib.h>

static uint8_t file[COIL_FILE_ROOM(SLOTS, VALUES)];
static uint8_t bench[COIL_WORST(VALUES)];
static uint64_t fcm[COIL_TABLE_WORDS(T)];
static uint64_t dfcm[COIL_TABLE_WORDS(T)];
static uint64_t words[VALUES];
static uint8_t bytes[8 * VALUES];

static void write_file(const char *folder, const char *name, const uint8_t *from, size_t length)
{
    char path[1024];
    snprintf(path, sizeof path, "%s/%s", folder, name);
    FILE *out = fopen(path, "wb");
    if (!out || fwrite(from, 1, length, out) != length || fclose(out) != 0) {
        fprintf(stderr, "cannot write %s\n", path);
        exit(1);
    }
}

int main(int argc, char **argv)
{
    size_t length, new_length;
    if (argc != 2 || coil_create(file, sizeof file, EXAM, T, &length) != COIL_DONE)
        return 2;
    for (uint32_t slot = 0; slot < SLOTS; slot++) {
        make_map(slot, words);
        if (coil_append(file, sizeof file, length, EXAM, slot, words, VALUES >> slot, fcm, COIL_TABLE_WORDS(T),
                        dfcm, COIL_TABLE_WORDS(T), bench, sizeof bench, &new_length) != COIL_DONE)
            return 1;
        length = new_length;
    }
    make_map(0, words);
    for (size_t i = 0; i < sizeof bytes; i++)
        bytes[i] = (uint8_t)(words[i / 8] >> (8 * (i % 8)));
    write_file(argv[1], "map.words", bytes, sizeof bytes);
    write_file(argv[1], "exam.coil", file, length);
    return 0;
}
