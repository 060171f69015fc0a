/* How many maps fit into one exam file: the table under "A real exam" in README.md, with t = 10; or, given a side
 * from 1 to 1024, the same for maps of side by side complex values.
 *
 *     cc -O2 -Iinclude bench/fits.c target/staticlib/libcoil.a -lm -o target/fits && target/fits [SIDE]
 *
 * Appends made maps until an append is refused, fetches each of them and compares. The maps are like the coil
 * input of inputs.c, which is coil 0 here; fifteen others stand around the body. Their last bits are those of the C
 * library's exp, sin and cos, so that sizes may differ by some bytes from machine to machine.
 */
#include "coil.h"

#include <math.h>
#include <stdio.h>
#include <stdlib.h>
#include <string.h>

#define T 10u
#define EXAM UINT64_C(7)
#define COILS 16u
#define MOST_SIDE 1024u
#define PI 3.14159265358979323846

static uint8_t file[COIL_MOST_FILE_BYTES];
static uint8_t bench[COIL_WORST(COIL_MOST_WORDS)];
static uint64_t fcm[COIL_TABLE_WORDS(T)], dfcm[COIL_TABLE_WORDS(T)];
static uint64_t map[2 * MOST_SIDE * MOST_SIDE], back[COIL_MOST_WORDS];

/* A coil's sensitivity at a point of the square from -1 to 1. With air, all outside an ellipse is exactly 0. */
static void coil_point(int air, unsigned coil, double x, double y, double part[2])
{
    const double wide = 0.55, high = 0.4630;
    /* Every 16 maps the coils turn a little: no map comes twice. */
    double angle = 2 * PI * (coil % COILS) / COILS + 0.001 * (coil / COILS);
    double from_x = x + cos(angle), from_y = y - 0.2 * cos(angle) - sin(angle);
    double magnitude = exp(-0.8 * (from_x * from_x + from_y * from_y));
    double phase = 0.7 + angle + 1.1 * x - 0.6 * y + 0.3 * x * y;
    int body = !air || (x / wide) * (x / wide) + (y / high) * (y / high) < 1;
    part[0] = body ? magnitude * cos(phase) : 0;
    part[1] = body ? magnitude * sin(phase) : 0;
}

static void make_map(int air, unsigned coil, unsigned side)
{
    for (size_t i = 0; i < (size_t)side * side; i++) {
        double part[2];
        double x = (2.0 * (double)(i % side) + 1) / side - 1;
        double y = (2.0 * (double)(i / side) + 1) / side - 1;
        coil_point(air, coil, x, y, part);
        memcpy(&map[2 * i], part, sizeof part);
    }
}

/* Appends so many words, and answers the new length, or 0 where they have no room. */
static size_t append(size_t length, uint32_t slot, const uint64_t *words, size_t n)
{
    size_t new_length, count;
    uint32_t answer = coil_append(file, sizeof file, length, EXAM, slot, words, n, fcm, COIL_TABLE_WORDS(T),
                                  dfcm, COIL_TABLE_WORDS(T), bench, sizeof bench, &new_length);
    if (answer == COIL_NO_ROOM || answer == COIL_FILE_FULL)
        return 0;
    if (answer != COIL_DONE
        || coil_fetch(file, sizeof file, new_length, EXAM, slot, fcm, COIL_TABLE_WORDS(T), dfcm,
                      COIL_TABLE_WORDS(T), back, COIL_MOST_WORDS, &count) != COIL_DONE
        || count != n || memcmp(back, words, 8 * n) != 0) {
        printf("slot %u did not come back\n", (unsigned)slot);
        exit(1);
    }
    return new_length;
}

/* Appends one map, in as many slots as it needs, and answers the new length, or 0 where it has no room. */
static size_t append_map(size_t length, uint32_t slot, size_t words)
{
    for (size_t at = 0; at < words && length != 0; at += COIL_MOST_WORDS) {
        size_t left = words - at;
        length = append(length, slot++, map + at, left < COIL_MOST_WORDS ? left : COIL_MOST_WORDS);
    }
    return length;
}

/* Fills a file with maps of side by side values. */
static void fill(int air, unsigned side)
{
    size_t words = 2 * (size_t)side * side, last = words % COIL_MOST_WORDS;
    unsigned full = (unsigned)(words / COIL_MOST_WORDS), slots = full + (last != 0);
    size_t worst = full * (COIL_WORST(COIL_MOST_WORDS) + 12) + (last != 0 ? COIL_WORST(last) + 12 : 0);
    size_t by_bytes = (COIL_MOST_FILE_BYTES - COIL_EMPTY_FILE) / worst, by_slots = COIL_MOST_ENTRIES / slots;
    size_t length, least = (size_t)-1, most = 0;
    unsigned maps = 0;
    if (coil_create(file, sizeof file, EXAM, T, &length) != COIL_DONE)
        exit(1);
    for (;; maps++) {
        size_t end;
        make_map(air, maps, side);
        end = append_map(length, maps * slots, words);
        if (end == 0)
            break;
        least = end - length < least ? end - length : least;
        most = end - length > most ? end - length : most;
        length = end;
    }
    printf("%u by %u, %s: %zu words, slots %u; at worst %zu bytes a map, %zu maps; ", side, side,
           air ? "80 % air" : "no air", words, slots, worst, by_bytes < by_slots ? by_bytes : by_slots);
    if (maps == 0)
        printf("measured: none\n");
    else
        printf("measured %zu to %zu bytes, %u maps\n", least, most, maps);
}

int main(int argc, char **argv)
{
    unsigned sides[] = { 128, 181, 256 }, many = 3;
    if (argc > 1) {
        sides[0] = (unsigned)strtoul(argv[1], NULL, 10);
        many = 1;
    }
    if (argc > 2 || sides[0] < 1 || sides[0] > MOST_SIDE) {
        fprintf(stderr, "usage: fits [SIDE], a side from 1 to %u\n", MOST_SIDE);
        return 2;
    }
    for (int air = 1; air >= 0; air--)
        for (unsigned i = 0; i < many; i++)
            fill(air, sides[i]);
    return 0;
}
