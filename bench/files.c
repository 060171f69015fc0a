/* See files.h. */
#include "files.h"
#include "clock.h"

#include "../include/coil.h"
#include "../tests/large_file.h"

#define ENTRIES 1024u
#define SMALLEST_BLOCK 8u
#define ROUNDS 2000

static uint8_t file[COIL_MOST_FILE_BYTES];

typedef struct {
    const char *what;
    size_t entries;                        /* that the file has before the call */
    uint32_t (*call)(size_t length);
} file_call;

static uint32_t open_it(size_t length)
{
    return coil_open(file, sizeof file, length, EXAM);
}

static uint32_t find(size_t length, uint32_t slot)
{
    size_t offset, size;
    return coil_find(file, sizeof file, length, EXAM, slot, &offset, &size);
}

static uint32_t find_first(size_t length)
{
    return find(length, 0);
}

static uint32_t find_middle(size_t length)
{
    return find(length, 10 * (ENTRIES / 2));
}

static uint32_t find_last(size_t length)
{
    return find(length, 10 * (ENTRIES - 1));
}

static uint32_t append(size_t length)
{
    static uint8_t bench[COIL_WORST(1)];
    uint64_t word = 1, fcm[1], dfcm[1];
    size_t new_length;
    return coil_append(file, sizeof file, length, EXAM, 10 * (ENTRIES - 1), &word, 1, fcm, 1, dfcm, 1,
                       bench, sizeof bench, &new_length);
}

static const file_call file_calls[] = {
    { "open", ENTRIES, open_it },
    { "find the first slot", ENTRIES, find_first },
    { "find the middle slot", ENTRIES, find_middle },
    { "find the last slot", ENTRIES, find_last },
    { "append a map of one word", ENTRIES - 1, append },
};

/* The shortest time of one call, on a file that is laid out anew each time. Below 0 where it is refused. */
static double time_of(const file_call *c, size_t length)
{
    double shortest = -1;
    for (int round = 0; round < ROUNDS; round++) {
        lay_out(file, length, c->entries);
        double start = now_ns();
        uint32_t number = c->call(length);
        double taken = now_ns() - start;
        if (number != COIL_DONE) {
            fprintf(stderr, "bench: %s is refused with %u\n", c->what, (unsigned)number);
            return -1;
        }
        if (shortest < 0 || taken < shortest) {
            shortest = taken;
        }
    }
    return shortest;
}

int write_files(FILE *to)
{
    size_t large = sizeof file - 65536, small = (SMALLEST_BLOCK + ENTRY) * ENTRIES + TRAILER;
    fprintf(to, "\n### The file's calls, %u entries\n\n", ENTRIES);
    fprintf(to, "Microseconds a call. Append meets %u entries and adds the last.\n\n", ENTRIES - 1);
    fprintf(to, "| call | file of %zu bytes | file of %zu bytes |\n|---|--:|--:|\n", large, small);
    for (size_t i = 0; i < sizeof file_calls / sizeof file_calls[0]; i++) {
        double in_large = time_of(&file_calls[i], large), in_small = time_of(&file_calls[i], small);
        if (in_large < 0 || in_small < 0) {
            return 0;
        }
        fprintf(to, "| %s | %.2f | %.2f |\n", file_calls[i].what, in_large / 1000, in_small / 1000);
    }
    return 1;
}
