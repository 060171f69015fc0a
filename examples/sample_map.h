/* The made maps of the sample exam, for samples.c and for the test that fetches the exam as it was packed before. */
#ifndef SAMPLE_MAP_H
#define SAMPLE_MAP_H

#include <stdint.h>
#include <string.h>

#define VALUES 4096u
#define SLOTS 5u
#define T 10u
#define EXAM UINT64_C(20240117)

/* A made map of 64 by 64 values: the coil sees more of what is near, and outside a disc is air. Slot k has the map of
 * coil k, its first VALUES >> k values. */
static void make_map(unsigned coil, uint64_t *words)
{
    for (unsigned i = 0; i < VALUES; i++) {
        double x = (double)(i % 64), y = (double)(i / 64), value = 0.0;
        double from_coil = (x - 15.0 * coil) * (x - 15.0 * coil) + y * y;
        if ((x - 31.5) * (x - 31.5) + (y - 31.5) * (y - 31.5) < 260.0)
            value = 1.0 / (1.0 + from_coil / 400.0);
        memcpy(&words[i], &value, sizeof value);
    }
}

#endif
