/* See large_file.h. */
#include "large_file.h"

#include <string.h>

static void put(uint8_t *at, unsigned bytes, uint64_t value)
{
    for (unsigned i = 0; i < bytes; i++)
        at[i] = (uint8_t)(value >> (8 * i));
}

void lay_out(uint8_t *file, size_t length, size_t entries)
{
    size_t start = length - TRAILER - ENTRY * entries;
    uint8_t *entry = file + start, *trailer = file + length - TRAILER;
    for (size_t i = 0; i < entries; i++, entry += ENTRY) {
        size_t offset = start / entries * i;
        size_t end = i + 1 == entries ? start : start / entries * (i + 1);
        put(entry, 4, 10 * i);
        put(entry + 4, 4, offset);
        put(entry + 8, 4, end - offset);
    }
    memcpy(trailer, "coil\1\0\0\0", 8);
    put(trailer + 8, 8, EXAM);
    put(trailer + 16, 4, TRAILER + ENTRY * entries);
    put(trailer + 20, 4, entries);
    put(trailer + 24, 8, length);
}
