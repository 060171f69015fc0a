/* See inputs.h. */
#include "inputs.h"

#include <math.h>
#include <string.h>

/* splitmix64: small, and good enough that no codec finds anything in it. */
uint64_t random_word(uint64_t *seed)
{
    uint64_t z = *seed += 0x9E3779B97F4A7C15u;
    z = (z ^ (z >> 30)) * 0xBF58476D1CE4E5B9u;
    z = (z ^ (z >> 27)) * 0x94D049BB133111EBu;
    return z ^ (z >> 31);
}

size_t row_words(size_t count)
{
    size_t row = 2;
    while (row * row < 4 * count) {
        row *= 2;
    }
    return row;
}

static void fill_zeros(uint64_t *words, size_t count)
{
    memset(words, 0, 8 * count);
}

/* The sensitivity of one coil at a point of the square from -1 to 1: the magnitude falls off with the
 * distance from a coil at the left edge, the phase turns slowly. Outside an ellipse that covers a fifth
 * of the square there is air, exactly 0. */
static void coil_point(double x, double y, double *real, double *imaginary)
{
    const double wide = 0.55, high = 0.4630;
    *real = 0;
    *imaginary = 0;
    if ((x / wide) * (x / wide) + (y / high) * (y / high) < 1) {
        double distance = sqrt((x + 1) * (x + 1) + (y - 0.2) * (y - 0.2));
        double magnitude = exp(-0.8 * distance * distance);
        double phase = 0.7 + 1.1 * x - 0.6 * y + 0.3 * x * y;
        *real = magnitude * cos(phase);
        *imaginary = magnitude * sin(phase);
    }
}

static void fill_coil(uint64_t *words, size_t count)
{
    size_t points = row_words(count) / 2, rows = count / row_words(count);
    for (size_t i = 0; i < points * rows; i++) {
        double part[2];
        double x = (2.0 * (double)(i % points) + 1) / (double)points - 1;
        double y = (2.0 * (double)(i / points) + 1) / (double)rows - 1;
        coil_point(x, y, &part[0], &part[1]);
        memcpy(&words[2 * i], part, sizeof part);
    }
}

/* Runs of 32 to 1,055 words. In a run each word differs from the one before by a fixed amount. */
static void fill_ramps(uint64_t *words, size_t count)
{
    uint64_t seed = 2, value = 0, step = 0;
    size_t left = 0;
    for (size_t i = 0; i < count; i++) {
        if (left == 0) {
            left = 32 + random_word(&seed) % 1024;
            value = random_word(&seed);
            step = random_word(&seed) >> (8 + random_word(&seed) % 56);
        }
        words[i] = value;
        value += step;
        left--;
    }
}

static void fill_noise(uint64_t *words, size_t count)
{
    uint64_t seed = 3;
    for (size_t i = 0; i < count; i++) {
        words[i] = random_word(&seed);
    }
}

/* Each word differs from the one before in 0 to 6 low bytes, at random, and now and then in all 8. Mostly the
 * top two bytes stay, so fcm predicts the word before, and the residuals' widths are as random. */
static void fill_widths(uint64_t *words, size_t count)
{
    uint64_t seed = 4, value = 0;
    for (size_t i = 0; i < count; i++) {
        uint64_t wide = random_word(&seed) % 7;
        uint64_t change = wide == 0 ? 0 : (random_word(&seed) | 1u) >> (64 - 8 * wide);
        value ^= random_word(&seed) % 64 == 0 ? random_word(&seed) : change;
        words[i] = value;
    }
}

const input inputs[INPUTS] = {
    { "zeros", "every word 0", fill_zeros },
    { "coil", "a coil's complex sensitivity map as doubles, 80 % air", fill_coil },
    { "ramps", "runs of fixed differences", fill_ramps },
    { "noise", "random words", fill_noise },
    { "widths", "differences of 0 to 6 bytes, at random", fill_widths },
};
